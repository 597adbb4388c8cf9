//! Generations and rekeying (document 01, "Frames and generations", as change request iii left it; RFC 8548, 3.8).

use crate::driver::calls::{Answer, Generations, Sent};

pub fn start() -> Generations {
    Generations {
        local: 0,
        remote: 0,
        last: 0,
        fin: false,
    }
}

/// Whether a rekey frame is owed: never after FINp.
pub fn owed(record: &Generations) -> bool {
    record.local > record.last && !record.fin
}

/// The frame that is sent next, FINp or not.
fn frame(record: &mut Generations, fin: bool) -> Sent {
    let rekey = record.local > record.last;
    if rekey {
        record.last += 1;
    }
    record.fin |= fin;
    Sent {
        generation: record.last,
        rekey,
    }
}

pub fn send(record: &mut Generations, fin: bool) -> Answer<Sent> {
    if record.fin {
        return Err(14);
    }
    Ok(frame(record, fin))
}

pub fn initiate(record: &mut Generations, has_data: bool, fin: bool) -> Answer<Sent> {
    if owed(record) {
        return Err(4);
    }
    let local = record.local.checked_add(1).ok_or(13)?;
    if record.fin {
        return Err(14);
    }
    if !has_data && record.remote < record.local {
        return Err(15);
    }
    record.local = local;
    Ok(frame(record, fin))
}

pub fn receive_frame(record: &mut Generations, rekey: bool) -> Answer<u16> {
    if rekey {
        record.remote = record.remote.checked_add(1).ok_or(13)?;
        record.local = record.local.max(record.remote);
    }
    Ok(record.remote)
}

mod tests {
    use super::*;

    fn of(local: u16, remote: u16, last: u16, fin: bool) -> Generations {
        Generations {
            local,
            remote,
            last,
            fin,
        }
    }

    fn sent(generation: u16, rekey: bool) -> Answer<Sent> {
        Ok(Sent { generation, rekey })
    }

    #[test]
    fn two_received_rekeys_before_a_send() {
        let mut g = start();
        assert_eq!(receive_frame(&mut g, true), Ok(1));
        assert_eq!(receive_frame(&mut g, true), Ok(2));
        assert_eq!(g, of(2, 2, 0, false));
        assert_eq!(send(&mut g, false), sent(1, true));
        assert_eq!(send(&mut g, false), sent(2, true));
        assert_eq!(send(&mut g, false), sent(2, false));
    }

    #[test]
    fn initiating_without_data() {
        let mut g = start();
        assert_eq!(initiate(&mut g, false, false), sent(1, true));
        assert_eq!(g, of(1, 0, 1, false));
        assert_eq!(initiate(&mut g, false, false), Err(15));
        assert_eq!(initiate(&mut g, true, false), sent(2, true));
        assert_eq!(g, of(2, 0, 2, false));
    }

    #[test]
    fn odd_records() {
        let mut g = of(3, 0, 10, false);
        assert_eq!(initiate(&mut g, true, false), sent(10, false));
        assert_eq!(g, of(4, 0, 10, false));
        let mut g = of(0, 5, 0, false);
        assert_eq!(receive_frame(&mut g, true), Ok(6));
        assert_eq!(g, of(6, 6, 0, false));
        assert_eq!(
            initiate(&mut of(0xffff, 3, 0xffff, true), false, false),
            Err(13)
        );
        assert_eq!(
            initiate(&mut of(0xffff, 0xffff, 0, true), false, false),
            Err(13)
        );
        assert_eq!(initiate(&mut of(1, 1, 0, true), true, false), Err(14));
        assert_eq!(initiate(&mut of(1, 1, 0, false), true, false), Err(4));
        assert_eq!(initiate(&mut of(1, 0, 1, true), false, false), Err(14));
        assert_eq!(initiate(&mut of(3, 5, 10, true), false, false), Err(14));
        let mut g = of(7, 0xffff, 7, false);
        assert_eq!(receive_frame(&mut g, true), Err(13));
        assert_eq!(receive_frame(&mut g, false), Ok(0xffff));
        assert_eq!(g, of(7, 0xffff, 7, false));
        assert_eq!(
            send(&mut of(0xffff, 0, 0xfffe, false), false),
            sent(0xffff, true)
        );
    }

    #[test]
    fn nothing_is_sent_after_fin() {
        let mut g = start();
        assert_eq!(send(&mut g, true), sent(0, false));
        assert_eq!(send(&mut g, false), Err(14));
        assert_eq!(initiate(&mut g, true, false), Err(14));
        assert_eq!(receive_frame(&mut g, true), Ok(1));
        assert_eq!(g, of(1, 1, 0, true));
        assert!(!owed(&g));
        assert_eq!(initiate(&mut g, true, false), Err(14));
        let mut g = start();
        assert_eq!(initiate(&mut g, false, true), sent(1, true));
        assert_eq!(send(&mut g, false), Err(14));
    }

    #[test]
    fn nothing_is_owed_after_fin() {
        let mut g = of(2, 2, 0, false);
        assert!(owed(&g));
        assert_eq!(send(&mut g, true), sent(1, true));
        assert_eq!(g, of(2, 2, 1, true));
        assert!(!owed(&g));
        assert_eq!(receive_frame(&mut g, true), Ok(3));
        assert_eq!(g, of(3, 3, 1, true));
        assert!(!owed(&g));
        let mut g = of(5, 0, 3, true);
        assert_eq!(receive_frame(&mut g, true), Ok(1));
        assert_eq!(g, of(5, 1, 3, true));
        assert!(!owed(&g));
        assert!(!owed(&of(0xffff, 0xffff, 0, true)));
    }
}
