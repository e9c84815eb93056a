//! The command `yovanelum-dap`: a debug adapter, which an editor starts.

use std::env;
use std::io::{self, Write};
use std::net::{Ipv4Addr, TcpListener, TcpStream};
use std::process::ExitCode;
use yovanelum_dap::{Options, serve};

const USAGE: &str = "\
Usage: yovanelum-dap [--port PORT [--run-tests]]

Speaks the Debug Adapter Protocol: on the standard streams, or with one client after the other on a port of 127.0.0.1.

--port PORT   prints `listening on 127.0.0.1:PORT`; with 0 it is any free port
--run-tests   lets a client of the port have tests run, which one of the standard streams always may
";

enum Way {
    Streams,
    Port(u16, Options),
    Help,
}

fn main() -> ExitCode {
    match parsed(env::args().skip(1)) {
        Ok(Way::Help) => {
            print!("{USAGE}");
            ExitCode::SUCCESS
        }
        Ok(Way::Streams) => {
            let is_whole = serve(io::stdin(), io::stdout(), Options { runs_tests: true });
            ExitCode::from(u8::from(!is_whole))
        }
        Ok(Way::Port(port, options)) => match listen(port, options) {
            Ok(()) => ExitCode::SUCCESS,
            Err(fault) => failed(&format!("port {port} of 127.0.0.1: {fault}"), 4),
        },
        Err(fault) => failed(&format!("{fault}\n\n{USAGE}"), 2),
    }
}

fn failed(fault: &str, status: u8) -> ExitCode {
    eprintln!("yovanelum-dap: {fault}");
    ExitCode::from(status)
}

fn parsed(words: impl Iterator<Item = String>) -> Result<Way, String> {
    let (mut port, mut runs_tests) = (None, false);
    let mut words = words;
    while let Some(word) = words.next() {
        match word.as_str() {
            "--help" | "-h" => return Ok(Way::Help),
            "--run-tests" => runs_tests = true,
            "--port" => {
                let number = words.next().and_then(|word| word.parse().ok());
                port = Some(number.ok_or("`--port` needs a number below 65536")?);
            }
            other => return Err(format!("there is no option `{other}`")),
        }
    }
    match port {
        Some(port) => Ok(Way::Port(port, Options { runs_tests })),
        None if runs_tests => Err("`--run-tests` is for `--port`".to_string()),
        None => Ok(Way::Streams),
    }
}

/// Serves one client after the other. Only programs of this machine can connect.
fn listen(port: u16, options: Options) -> io::Result<()> {
    let listener = TcpListener::bind((Ipv4Addr::LOCALHOST, port))?;
    println!("listening on {}", listener.local_addr()?);
    io::stdout().flush()?;
    for client in listener.incoming() {
        // A client that goes away is no fault of the adapter.
        let _ = client.and_then(|client| attend(client, options));
    }
    Ok(())
}

fn attend(client: TcpStream, options: Options) -> io::Result<()> {
    // Each answer is one small write, for which the editor waits.
    client.set_nodelay(true)?;
    let output = client.try_clone()?;
    serve(client.try_clone()?, output, options);
    // The thread that reads requests ends so.
    client.shutdown(std::net::Shutdown::Both)
}
