//! The same programs under Lua 5.4, if it is installed. Each script times itself and prints seconds and variables.

use std::path::Path;
use std::process::Command;

pub fn installed() -> bool {
    Command::new("lua5.4").arg("-v").output().is_ok_and(|output| output.status.success())
}

/// The least seconds of the script's rounds. Its variables must end as ours do.
pub fn least_seconds(script: &str, from: i32, store: &[i32]) -> Result<f64, String> {
    let path = Path::new(env!("CARGO_MANIFEST_DIR")).join("lua").join(script);
    let output = Command::new("lua5.4").arg(path).arg(from.to_string()).output().map_err(|fault| fault.to_string())?;
    if !output.status.success() {
        return Err(String::from_utf8_lossy(&output.stderr).into_owned());
    }
    let printed = String::from_utf8_lossy(&output.stdout);
    let mut words = printed.split_whitespace();
    let seconds = words.next().and_then(|word| word.parse().ok()).ok_or("it printed no time")?;
    for (variable, word) in words.enumerate() {
        if word != store[variable].to_string() {
            return Err(format!("v{variable} is {word} and should be {}", store[variable]));
        }
    }
    Ok(seconds)
}
