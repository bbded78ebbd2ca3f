//! Puts an object and gets it back: `put_get`, with STORE_SOCKET, STORE_JOB and STORE_KEY (64 hexadecimal digits) in the environment.

use std::env;
use std::error::Error;
use std::process::ExitCode;
use std::time::Duration;

use store_client::{parse_key, Session};

fn main() -> ExitCode {
    match put_and_get() {
        Ok(()) => ExitCode::SUCCESS,
        Err(error) => {
            eprintln!("put_get: {error}");
            ExitCode::FAILURE
        }
    }
}

fn put_and_get() -> Result<(), Box<dyn Error>> {
    let (path, job, key) = (given("STORE_SOCKET")?, given("STORE_JOB")?.parse()?, parse_key(&given("STORE_KEY")?)?);
    let store = Session::connect(path, job, &key, Some(Duration::from_secs(30)))?;
    let id = store.put(b"Hello", None)?;
    let held = store.get(id, None)?;
    println!("{}", String::from_utf8_lossy(&held));
    drop(held);
    store.delete(id)?;
    Ok(())
}

fn given(name: &str) -> Result<String, String> {
    env::var(name).map_err(|error| format!("{name}: {error}"))
}
