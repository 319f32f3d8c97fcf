//! The reference's groups as a code and four raw values: the fields as they stand in a group's bytes, 0 where it has none.

use compare::reference::groups::{self, Group, Reading};
use compare::reference::{refusal, Refused};

/// A group's fields as they stand in its bytes, 0 where it has none.
pub fn raw(group: Group) -> [u16; 4] {
    match group {
        Group::ChargerReady { ready } => [ready.into(), 0, 0, 0],
        Group::VehicleReady { ready, voltage } => [ready.into(), voltage, 0, 0],
        Group::Demand {
            voltage,
            current,
            mode,
        } => [voltage, current, mode.into(), 0],
        Group::VehicleInformation { charge, minutes } => [charge, minutes, 0, 0],
        Group::Ability { current, reason } => [current, reason.into(), 0, 0],
        Group::ChargerInformation { voltage, current } => [voltage, current, 0, 0],
        Group::Battery {
            highest_voltage,
            lowest_voltage,
            highest_temperature,
            lowest_temperature,
        } => [
            cell(highest_voltage),
            cell(lowest_voltage),
            temperature(highest_temperature),
            temperature(lowest_temperature),
        ],
        Group::ChargerPause { status } | Group::VehiclePause { status } => [status.into(), 0, 0, 0],
    }
}

fn cell(reading: Reading<u16>) -> u16 {
    match reading {
        Reading::Value(value) => value,
        Reading::Invalid => 0xFFFF,
        Reading::Abnormal => 0xFFFE,
    }
}

fn temperature(reading: Reading<i16>) -> u16 {
    match reading {
        Reading::Value(degrees) => (degrees + 50) as u16,
        Reading::Invalid => 0xFF,
        Reading::Abnormal => 0xFE,
    }
}

/// Writes raw values. Values that no group of this code holds (a byte over 255, a field that it does not have) are refused
/// as values, after length and code.
pub fn write(code: u8, values: [u16; 4], lent: &mut [u8]) -> Result<(), Refused> {
    if lent.len() != 8 || groups::row_of(code).is_none() {
        return Err(refusal::GROUP);
    }
    groups::write(group_of(code, values).ok_or(refusal::VALUE)?, lent)
}

fn group_of(code: u8, values: [u16; 4]) -> Option<Group> {
    let byte = |value: u16| u8::try_from(value).ok();
    Some(match (code, values) {
        (0x71, [ready, 0, 0, 0]) => Group::ChargerReady {
            ready: byte(ready)?,
        },
        (0x72, [ready, voltage, 0, 0]) => Group::VehicleReady {
            ready: byte(ready)?,
            voltage,
        },
        (0x73, [voltage, current, mode, 0]) => Group::Demand {
            voltage,
            current,
            mode: byte(mode)?,
        },
        (0x74, [charge, minutes, 0, 0]) => Group::VehicleInformation { charge, minutes },
        (0x75, [current, reason, 0, 0]) => Group::Ability {
            current,
            reason: byte(reason)?,
        },
        (0x76, [voltage, current, 0, 0]) => Group::ChargerInformation { voltage, current },
        (0x77, [highest, lowest, hottest, coldest]) => Group::Battery {
            highest_voltage: cell_of(highest),
            lowest_voltage: cell_of(lowest),
            highest_temperature: temperature_of(byte(hottest)?),
            lowest_temperature: temperature_of(byte(coldest)?),
        },
        (0x78, [status, 0, 0, 0]) => Group::ChargerPause {
            status: byte(status)?,
        },
        (0x79, [status, 0, 0, 0]) => Group::VehiclePause {
            status: byte(status)?,
        },
        _ => return None,
    })
}

fn cell_of(value: u16) -> Reading<u16> {
    match value {
        0xFFFF => Reading::Invalid,
        0xFFFE => Reading::Abnormal,
        _ => Reading::Value(value),
    }
}

fn temperature_of(value: u8) -> Reading<i16> {
    match value {
        0xFF => Reading::Invalid,
        0xFE => Reading::Abnormal,
        _ => Reading::Value(i16::from(value) - 50),
    }
}
