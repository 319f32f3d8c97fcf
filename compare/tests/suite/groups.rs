//! Parameter groups: 001 tables H.3 to H.11.

use compare::reference::groups::{read, row_of, write, Group, Reading, ROWS};
use compare::reference::Refused;

const F: u8 = 0xFF;

fn samples() -> Vec<(Group, [u8; 8])> {
    vec![
        (
            Group::ChargerReady { ready: 1 },
            [0x71, 1, F, F, F, F, F, F],
        ),
        (
            Group::VehicleReady {
                ready: 0,
                voltage: 65000,
            },
            [0x72, 0, 0xE8, 0xFD, F, F, F, F],
        ),
        (
            Group::Demand {
                voltage: 4000,
                current: 0,
                mode: 2,
            },
            [0x73, 0xA0, 0x0F, 0, 0, 2, F, F],
        ),
        (
            Group::VehicleInformation {
                charge: 1000,
                minutes: 65000,
            },
            [0x74, 0xE8, 0x03, 0xE8, 0xFD, F, F, F],
        ),
        (
            Group::Ability {
                current: 2500,
                reason: 0xFF,
            },
            [0x75, 0xC4, 0x09, 0xFF, F, F, F, F],
        ),
        (
            Group::ChargerInformation {
                voltage: 1,
                current: 256,
            },
            [0x76, 1, 0, 0, 1, F, F, F],
        ),
        (
            Group::Battery {
                highest_voltage: Reading::Value(65000),
                lowest_voltage: Reading::Abnormal,
                highest_temperature: Reading::Value(200),
                lowest_temperature: Reading::Value(-50),
            },
            [0x77, 0xE8, 0xFD, 0xFE, 0xFF, 250, 0, F],
        ),
        (
            Group::Battery {
                highest_voltage: Reading::Invalid,
                lowest_voltage: Reading::Value(0),
                highest_temperature: Reading::Abnormal,
                lowest_temperature: Reading::Invalid,
            },
            [0x77, 0xFF, 0xFF, 0, 0, 0xFE, 0xFF, F],
        ),
        (
            Group::ChargerPause { status: 0xAA },
            [0x78, 0xAA, F, F, F, F, F, F],
        ),
        (
            Group::VehiclePause { status: 0 },
            [0x79, 0, F, F, F, F, F, F],
        ),
    ]
}

/// Code, length, sender and reliability of the nine groups.
#[test]
fn rows() {
    let lengths: Vec<_> = ROWS.iter().map(|row| (row.code, row.length)).collect();
    assert_eq!(
        lengths,
        [
            (0x71, 2),
            (0x72, 4),
            (0x73, 6),
            (0x74, 5),
            (0x75, 4),
            (0x76, 5),
            (0x77, 7),
            (0x78, 2),
            (0x79, 2)
        ]
    );
    let vehicle: Vec<_> = ROWS
        .iter()
        .filter(|row| row.from_vehicle)
        .map(|row| row.code)
        .collect();
    assert_eq!(vehicle, [0x72, 0x73, 0x74, 0x77, 0x79]);
    let reliable: Vec<_> = ROWS
        .iter()
        .filter(|row| row.reliable)
        .map(|row| row.code)
        .collect();
    assert_eq!(reliable, [0x78, 0x79]);
}

#[test]
fn reading_and_writing() {
    for (group, bytes) in samples() {
        assert_eq!(read(&bytes), Ok(group));
        let mut lent = [0x55; 8];
        assert_eq!(write(group, &mut lent), Ok(()));
        assert_eq!(lent, bytes);
    }
}

/// Refusal 9 by each of its reasons.
#[test]
fn code_length_filler() {
    for (group, bytes) in samples() {
        // another lent length
        for length in [0, 2, 7, 9] {
            let mut lent = bytes.to_vec();
            lent.resize(length, 0xFF);
            assert_eq!(read(&lent), Err(Refused(9)));
            let before = lent.clone();
            assert_eq!(write(group, &mut lent), Err(Refused(9)));
            assert_eq!(lent, before);
        }
        // another code
        for code in [0, 0x70, 0x7A, 0xFF] {
            let mut other = bytes;
            other[0] = code;
            assert_eq!(read(&other), Err(Refused(9)));
        }
        // every filler byte
        for place in row_of(bytes[0]).unwrap().length..8 {
            let mut other = bytes;
            other[place] = 0xFE;
            assert_eq!(read(&other), Err(Refused(9)));
        }
    }
}

/// 9 goes before 10: a bad value with bad filler is 9.
#[test]
fn order_of_9_and_10() {
    assert_eq!(read(&[0x71, 2, F, F, F, F, F, F]), Err(Refused(10)));
    assert_eq!(read(&[0x71, 2, F, F, F, F, F, 0]), Err(Refused(9)));
    assert_eq!(read(&[0x71, 2, F, F, F, F, F]), Err(Refused(9)));
    let mut lent = [0x55; 7];
    assert_eq!(
        write(Group::ChargerReady { ready: 2 }, &mut lent),
        Err(Refused(9))
    );
}

/// Reads a group and, if it reads, writes it back to the same bytes.
fn accepted(bytes: [u8; 8]) -> bool {
    match read(&bytes) {
        Ok(group) => {
            let mut lent = [0; 8];
            write(group, &mut lent).unwrap();
            assert_eq!(lent, bytes);
            true
        }
        Err(refused) => {
            assert_eq!(refused, Refused(10));
            false
        }
    }
}

/// Every value of every field, the others being good.
#[test]
fn values() {
    for byte in 0..=255_u8 {
        assert_eq!(accepted([0x71, byte, F, F, F, F, F, F]), byte <= 1);
        assert_eq!(accepted([0x72, byte, 0, 0, F, F, F, F]), byte <= 1);
        assert_eq!(
            accepted([0x73, 0, 0, 0, 0, byte, F, F]),
            byte == 1 || byte == 2
        );
        assert_eq!(
            accepted([0x75, 0, 0, byte, F, F, F, F]),
            byte <= 2 || byte == 0xFF
        );
        let temperature = byte <= 250 || byte >= 0xFE;
        assert_eq!(accepted([0x77, 0, 0, 0, 0, byte, 0, F]), temperature);
        assert_eq!(accepted([0x77, 0, 0, 0, 0, 0, byte, F]), temperature);
        let pause = byte == 0xAA || byte == 0;
        assert_eq!(accepted([0x78, byte, F, F, F, F, F, F]), pause);
        assert_eq!(accepted([0x79, byte, F, F, F, F, F, F]), pause);
    }
    for word in 0..=65535_u16 {
        let [low, high] = word.to_le_bytes();
        let tenths = word <= 65000;
        assert_eq!(accepted([0x72, 1, low, high, F, F, F, F]), tenths);
        assert_eq!(accepted([0x73, low, high, 0, 0, 1, F, F]), tenths);
        assert_eq!(accepted([0x73, 0, 0, low, high, 1, F, F]), tenths);
        assert_eq!(accepted([0x74, low, high, 0, 0, F, F, F]), word <= 1000);
        assert_eq!(accepted([0x74, 0, 0, low, high, F, F, F]), tenths);
        assert_eq!(accepted([0x75, low, high, 0, F, F, F, F]), tenths);
        assert_eq!(accepted([0x76, low, high, 0, 0, F, F, F]), tenths);
        assert_eq!(accepted([0x76, 0, 0, low, high, F, F, F]), tenths);
        // 0x77 alone has the two marks of a missing value.
        let cell = tenths || word >= 0xFFFE;
        assert_eq!(accepted([0x77, low, high, 0, 0, 0, 0, F]), cell);
        assert_eq!(accepted([0x77, 0, 0, low, high, 0, 0, F]), cell);
    }
}

/// Refusal 10 on writing; the lent bytes stay.
#[test]
fn bad_values_are_not_written() {
    let battery =
        |highest_voltage, lowest_voltage, highest_temperature, lowest_temperature| Group::Battery {
            highest_voltage,
            lowest_voltage,
            highest_temperature,
            lowest_temperature,
        };
    let (v, t) = (Reading::Value(0), Reading::Value(0));
    for group in [
        Group::ChargerReady { ready: 2 },
        Group::VehicleReady {
            ready: 2,
            voltage: 0,
        },
        Group::VehicleReady {
            ready: 0,
            voltage: 65001,
        },
        Group::Demand {
            voltage: 65001,
            current: 0,
            mode: 1,
        },
        Group::Demand {
            voltage: 0,
            current: 65001,
            mode: 1,
        },
        Group::Demand {
            voltage: 0,
            current: 0,
            mode: 0,
        },
        Group::VehicleInformation {
            charge: 1001,
            minutes: 0,
        },
        Group::VehicleInformation {
            charge: 0,
            minutes: 65001,
        },
        Group::Ability {
            current: 65535,
            reason: 0,
        },
        Group::Ability {
            current: 0,
            reason: 3,
        },
        Group::ChargerInformation {
            voltage: 65001,
            current: 0,
        },
        Group::ChargerInformation {
            voltage: 0,
            current: 65001,
        },
        battery(Reading::Value(65001), v, t, t),
        battery(v, Reading::Value(0xFFFE), t, t),
        battery(v, v, Reading::Value(201), t),
        battery(v, v, t, Reading::Value(-51)),
        battery(v, v, t, Reading::Value(i16::MAX)),
        Group::ChargerPause { status: 1 },
        Group::VehiclePause { status: 0xAB },
    ] {
        let mut lent = [0x55; 8];
        assert_eq!(write(group, &mut lent), Err(Refused(10)), "{group:?}");
        assert_eq!(lent, [0x55; 8]);
    }
}
