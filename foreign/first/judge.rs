use std::io::{stdin, Read};
use std::process::ExitCode;

fn main() -> ExitCode {
    let mut recording = String::new();
    stdin().read_to_string(&mut recording).expect("a recording");
    match listset::judge_text(recording) {
        Ok(said) => print!("{said}"),
        Err(wrong) => {
            println!("{wrong}");
            return wrong.status.into();
        }
    }
    ExitCode::SUCCESS
}
