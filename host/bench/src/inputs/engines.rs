//! The engines that a call may ask for, and numbers that are none.
use ulyptesh::{Engine, Settings};

/// Both engines.
pub const ENGINES: [Engine; 2] = [Engine::SIDE_BY_SIDE, Engine::FOUR_AT_A_TIME];

/// Numbers of no engine; the lower bytes of some are one's.
pub const NO_ENGINES: [Engine; 8] = [
    Engine(2),
    Engine(3),
    Engine(256),
    Engine(257),
    Engine(65_536),
    Engine(65_537),
    Engine(1 << 31),
    Engine(u32::MAX),
];

/// The same settings with the other engine; none where they ask for no engine.
pub fn by_other(settings: &Settings) -> Option<Settings> {
    let place = ENGINES.iter().position(|&engine| engine == settings.engine)?;
    Some(settings.with(|settings| settings.engine = ENGINES[1 - place]))
}
