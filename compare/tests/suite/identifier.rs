//! The identifier, and refusal 8 by each of its reasons.

use compare::reference::identifier::{build, read, Parts, EVCC, SECC};
use compare::reference::Refused;

const CHARGER: Parts = Parts {
    p: 3,
    edp: 0,
    dp: 0,
    pf: 0x38,
    ps: 0xF4,
    sa: 0x56,
};

#[test]
fn addresses() {
    assert_eq!((SECC, EVCC), (0x56, 0xF4));
    // 001 table 5: the vehicle's version message.
    let vehicle = Parts {
        p: 3,
        edp: 0,
        dp: 0,
        pf: 0x36,
        ps: SECC.into(),
        sa: EVCC.into(),
    };
    assert_eq!(build(vehicle), Ok(0x0C3656F4));
}

#[test]
fn reading() {
    assert_eq!(
        read(0),
        Ok(Parts {
            p: 0,
            edp: 0,
            dp: 0,
            pf: 0,
            ps: 0,
            sa: 0
        })
    );
    let all = Parts {
        p: 7,
        edp: 0,
        dp: 0,
        pf: 0xFF,
        ps: 0xFF,
        sa: 0xFF,
    };
    assert_eq!(read(0x1CFFFFFF), Ok(all));
    assert_eq!(build(all), Ok(0x1CFFFFFF));
    for bad in [
        0x2C38F456, // bit 29
        0x4C38F456, 0x8C38F456, 0xFFFFFFFF, 0x0E38F456, // EDP
        0x0D38F456, // DP
        0x0F38F456,
    ] {
        assert_eq!(read(bad), Err(Refused(8)), "{bad:08X}");
    }
}

#[test]
fn building() {
    assert_eq!(build(CHARGER), Ok(0x0C38F456));
    for bad in [
        Parts { p: 8, ..CHARGER },
        Parts {
            p: u32::MAX,
            ..CHARGER
        },
        Parts { edp: 1, ..CHARGER },
        Parts { edp: 2, ..CHARGER },
        Parts { dp: 1, ..CHARGER },
        Parts { pf: 256, ..CHARGER },
        Parts { ps: 256, ..CHARGER },
        Parts { sa: 256, ..CHARGER },
        Parts {
            sa: u32::MAX,
            ..CHARGER
        },
    ] {
        assert_eq!(build(bad), Err(Refused(8)), "{bad:?}");
    }
}
