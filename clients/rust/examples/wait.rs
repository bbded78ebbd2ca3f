//! A consumer waits for an object that a producer puts half a second later, by a pool of two sessions: `wait`, with STORE_SOCKET,
//! STORE_JOB and STORE_KEY (64 hexadecimal digits) in the environment.

use std::env;
use std::error::Error;
use std::process::ExitCode;
use std::thread;
use std::time::Duration;

use store_client::{parse_key, ObjectId, Pool};

const PATIENCE: Option<Duration> = Some(Duration::from_secs(30));

fn main() -> ExitCode {
    match produce_and_consume() {
        Ok(()) => ExitCode::SUCCESS,
        Err(error) => {
            eprintln!("wait: {error}");
            ExitCode::FAILURE
        }
    }
}

fn produce_and_consume() -> Result<(), Box<dyn Error>> {
    let (path, job, key) = (given("STORE_SOCKET")?, given("STORE_JOB")?.parse()?, parse_key(&given("STORE_KEY")?)?);
    let pool = Pool::new(path, job, &key, PATIENCE, 2)?;
    let id = pool.session(None)?.new_id()?;
    let came = thread::scope(|scope| {
        let producer = scope.spawn(|| produce(&pool, id));
        let came = consume(&pool, id);
        producer.join().map_err(|_| "the producer panicked")??;
        Ok::<_, Box<dyn Error>>(came?)
    })?;
    println!("{}", String::from_utf8_lossy(&came));
    pool.session(None)?.delete(id)?;
    Ok(())
}

fn produce(pool: &Pool, id: ObjectId) -> Result<(), store_client::Error> {
    thread::sleep(Duration::from_millis(500));
    pool.session(PATIENCE)?.put_as(id, b"Hello", PATIENCE)
}

fn consume(pool: &Pool, id: ObjectId) -> Result<Vec<u8>, store_client::Error> {
    let store = pool.session(PATIENCE)?;
    let held = store.get(id, PATIENCE)?;
    Ok(held.to_vec())
}

fn given(name: &str) -> Result<String, String> {
    env::var(name).map_err(|error| format!("{name}: {error}"))
}
