//! Parameter groups 0x71 to 0x79: 001, tables H.3 to H.11.

use super::{refusal, Refused};

/// A group's code, its length with the code, whether the vehicle sends it (the charger otherwise),
/// and whether it needs an acknowledgement: "Around the transport", "Groups (code: length)".
#[derive(Clone, Copy, Debug, PartialEq, Eq)]
pub struct Row {
    pub code: u8,
    pub length: usize,
    pub from_vehicle: bool,
    pub reliable: bool,
}

const fn row(code: u8, length: usize, from_vehicle: bool, reliable: bool) -> Row {
    Row {
        code,
        length,
        from_vehicle,
        reliable,
    }
}

pub const ROWS: [Row; 9] = [
    row(0x71, 2, false, false),
    row(0x72, 4, true, false),
    row(0x73, 6, true, false),
    row(0x74, 5, true, false),
    row(0x75, 4, false, false),
    row(0x76, 5, false, false),
    row(0x77, 7, true, false),
    row(0x78, 2, false, true),
    row(0x79, 2, true, true),
];

/// A field of 0x77, the one group with marks for a value that is not there.
#[derive(Clone, Copy, Debug, PartialEq, Eq)]
pub enum Reading<T> {
    Value(T),
    /// 参数无效
    Invalid,
    /// 数据异常
    Abnormal,
}

/// A group with its fields. Voltages and currents are in 0.1 V and 0.1 A, except that those of 77
/// are in 0.01 V; the state of charge is in 0.1 %, times in minutes, temperatures in degrees C.
#[derive(Clone, Copy, Debug, PartialEq, Eq)]
pub enum Group {
    /// 0x71, table H.3
    ChargerReady { ready: u8 },
    /// 0x72, table H.4
    VehicleReady { ready: u8, voltage: u16 },
    /// 0x73, table H.5
    Demand {
        voltage: u16,
        current: u16,
        mode: u8,
    },
    /// 0x74, table H.6
    VehicleInformation { charge: u16, minutes: u16 },
    /// 0x75, table H.7
    Ability { current: u16, reason: u8 },
    /// 0x76, table H.8
    ChargerInformation { voltage: u16, current: u16 },
    /// 0x77, table H.9
    Battery {
        highest_voltage: Reading<u16>,
        lowest_voltage: Reading<u16>,
        highest_temperature: Reading<i16>,
        lowest_temperature: Reading<i16>,
    },
    /// 0x78, table H.10
    ChargerPause { status: u8 },
    /// 0x79, table H.11
    VehiclePause { status: u8 },
}

impl Group {
    pub fn code(&self) -> u8 {
        match self {
            Group::ChargerReady { .. } => 0x71,
            Group::VehicleReady { .. } => 0x72,
            Group::Demand { .. } => 0x73,
            Group::VehicleInformation { .. } => 0x74,
            Group::Ability { .. } => 0x75,
            Group::ChargerInformation { .. } => 0x76,
            Group::Battery { .. } => 0x77,
            Group::ChargerPause { .. } => 0x78,
            Group::VehiclePause { .. } => 0x79,
        }
    }
}

/// The row of a code, if it is one of the nine.
pub fn row_of(code: u8) -> Option<Row> {
    ROWS.into_iter().find(|row| row.code == code)
}

/// Reads a group. Refusal 9 unless eight bytes are lent that begin with a known code and hold 0xFF
/// behind the group's own; then 10 where a field is outside its range.
pub fn read(lent: &[u8]) -> Result<Group, Refused> {
    let Ok(bytes) = <[u8; 8]>::try_from(lent) else {
        return Err(refusal::GROUP);
    };
    let Some(row) = row_of(bytes[0]) else {
        return Err(refusal::GROUP);
    };
    if bytes[row.length..].iter().any(|&byte| byte != 0xFF) {
        return Err(refusal::GROUP);
    }
    // "Words of two bytes go low byte first".
    let word = |at: usize| u16::from_le_bytes([bytes[at], bytes[at + 1]]);
    Ok(match row.code {
        0x71 => Group::ChargerReady {
            ready: ready(bytes[1])?,
        },
        0x72 => Group::VehicleReady {
            ready: ready(bytes[1])?,
            voltage: tenths(word(2))?,
        },
        0x73 => Group::Demand {
            voltage: tenths(word(1))?,
            current: tenths(word(3))?,
            mode: mode(bytes[5])?,
        },
        0x74 => Group::VehicleInformation {
            charge: charge(word(1))?,
            minutes: minutes(word(3))?,
        },
        0x75 => Group::Ability {
            current: tenths(word(1))?,
            reason: reason(bytes[3])?,
        },
        0x76 => Group::ChargerInformation {
            voltage: tenths(word(1))?,
            current: tenths(word(3))?,
        },
        0x77 => Group::Battery {
            highest_voltage: read_cell(word(1))?,
            lowest_voltage: read_cell(word(3))?,
            highest_temperature: read_temperature(bytes[5])?,
            lowest_temperature: read_temperature(bytes[6])?,
        },
        0x78 => Group::ChargerPause {
            status: pause(bytes[1])?,
        },
        _ => Group::VehiclePause {
            status: pause(bytes[1])?,
        },
    })
}

/// Writes a group over eight lent bytes, with 0xFF behind its own. Refusal 9 where another number
/// of bytes is lent, then 10 for a field; a refused write leaves the lent bytes as they are.
pub fn write(group: Group, lent: &mut [u8]) -> Result<(), Refused> {
    if lent.len() != 8 {
        return Err(refusal::GROUP);
    }
    let mut bytes = vec![group.code()];
    match group {
        Group::ChargerReady { ready: state } => bytes.push(ready(state)?),
        Group::VehicleReady {
            ready: state,
            voltage,
        } => {
            bytes.push(ready(state)?);
            bytes.extend(tenths(voltage)?.to_le_bytes());
        }
        Group::Demand {
            voltage,
            current,
            mode: kind,
        } => {
            bytes.extend(tenths(voltage)?.to_le_bytes());
            bytes.extend(tenths(current)?.to_le_bytes());
            bytes.push(mode(kind)?);
        }
        Group::VehicleInformation {
            charge: state,
            minutes: left,
        } => {
            bytes.extend(charge(state)?.to_le_bytes());
            bytes.extend(minutes(left)?.to_le_bytes());
        }
        Group::Ability {
            current,
            reason: why,
        } => {
            bytes.extend(tenths(current)?.to_le_bytes());
            bytes.push(reason(why)?);
        }
        Group::ChargerInformation { voltage, current } => {
            bytes.extend(tenths(voltage)?.to_le_bytes());
            bytes.extend(tenths(current)?.to_le_bytes());
        }
        Group::Battery {
            highest_voltage,
            lowest_voltage,
            highest_temperature,
            lowest_temperature,
        } => {
            bytes.extend(write_cell(highest_voltage)?.to_le_bytes());
            bytes.extend(write_cell(lowest_voltage)?.to_le_bytes());
            bytes.push(write_temperature(highest_temperature)?);
            bytes.push(write_temperature(lowest_temperature)?);
        }
        Group::ChargerPause { status } | Group::VehiclePause { status } => {
            bytes.push(pause(status)?);
        }
    }
    bytes.resize(8, 0xFF);
    lent.copy_from_slice(&bytes);
    Ok(())
}

fn judge<T>(value: T, good: bool) -> Result<T, Refused> {
    if good {
        Ok(value)
    } else {
        Err(refusal::VALUE)
    }
}

/// 0x00 未就绪, 0x01 就绪
fn ready(value: u8) -> Result<u8, Refused> {
    judge(value, value <= 1)
}

/// 0 V to 6500.0 V, 0 A to 6500.0 A
fn tenths(value: u16) -> Result<u16, Refused> {
    judge(value, value <= 65000)
}

/// 0x01 恒流, 0x02 恒压
fn mode(value: u8) -> Result<u8, Refused> {
    judge(value, value == 1 || value == 2)
}

/// 0 % to 100.0 %
fn charge(value: u16) -> Result<u16, Refused> {
    judge(value, value <= 1000)
}

/// 0 min to 65000 min
fn minutes(value: u16) -> Result<u16, Refused> {
    judge(value, value <= 65000)
}

/// 0x00 无变化, 0x01 电网原因, 0x02 充电机原因, 0xFF 其他
fn reason(value: u8) -> Result<u8, Refused> {
    judge(value, value <= 2 || value == 0xFF)
}

/// 暂停 0xAA, 恢复 0x00
fn pause(value: u8) -> Result<u8, Refused> {
    judge(value, value == 0xAA || value == 0x00)
}

/// 0 V to 650.00 V; 0xFFFF 参数无效; 0xFFFE 数据异常
fn read_cell(word: u16) -> Result<Reading<u16>, Refused> {
    match word {
        0xFFFF => Ok(Reading::Invalid),
        0xFFFE => Ok(Reading::Abnormal),
        0..=65000 => Ok(Reading::Value(word)),
        _ => Err(refusal::VALUE),
    }
}

fn write_cell(reading: Reading<u16>) -> Result<u16, Refused> {
    match reading {
        Reading::Invalid => Ok(0xFFFF),
        Reading::Abnormal => Ok(0xFFFE),
        Reading::Value(word) => judge(word, word <= 65000),
    }
}

/// 1 °C/位, -50 °C 偏移量; -50 °C to 200 °C; 0xFF 参数无效; 0xFE 数据异常
fn read_temperature(byte: u8) -> Result<Reading<i16>, Refused> {
    match byte {
        0xFF => Ok(Reading::Invalid),
        0xFE => Ok(Reading::Abnormal),
        0..=250 => Ok(Reading::Value(i16::from(byte) - 50)),
        _ => Err(refusal::VALUE),
    }
}

fn write_temperature(reading: Reading<i16>) -> Result<u8, Refused> {
    match reading {
        Reading::Invalid => Ok(0xFF),
        Reading::Abnormal => Ok(0xFE),
        Reading::Value(degrees) if (-50..=200).contains(&degrees) => Ok((degrees + 50) as u8),
        Reading::Value(_) => Err(refusal::VALUE),
    }
}
