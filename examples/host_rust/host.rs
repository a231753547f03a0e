//! A host with the modules of two parties: runs them by turns, and prints what each principal sees. Run it at the top of the repository.

use flowc::{Host, Run, Session};
use std::error::Error;

/// A party's name, its module, and its session.
struct Party {
    name: &'static str,
    module: Vec<u8>,
    session: Session,
}

impl Party {
    /// Compiles the module of a party, and opens a session of it on a world.
    fn open(host: &mut Host, name: &'static str, world: &str) -> Result<Party, Box<dyn Error>> {
        let read = |file: &str| std::fs::read(format!("examples/{name}/{file}"));
        let module = flowc::compile(&read("hierarchy.txt")?, &read(&format!("{name}.flow"))?)?;
        let session = host.open(&module, &read(world)?)?;
        Ok(Party { name, module, session })
    }

    /// Prints what a principal sees of the session.
    fn print_view(&self, host: &mut Host, principal: &str) -> Result<(), Box<dyn Error>> {
        let number = flowc::principal(&self.module, principal)?.ok_or("no such principal")?;
        // The first lines of a listing are the channels, in order, each with its direction and its name.
        let listing = flowc::list(&self.module)?;
        let names: Vec<&str> = listing.lines().filter_map(|line| line.split(' ').nth(1)).collect();
        print!("{}: {principal} sees", self.name);
        for pair in host.view(self.session, number)? {
            print!(" {} {}", names[pair.channel as usize], pair.number);
        }
        println!();
        Ok(())
    }
}

fn shown(run: Run) -> &'static str {
    match run {
        Run::Running => "running",
        Run::Finished => "finished",
        Run::Threw(_) => "threw",
        Run::Deep => "deep",
        Run::OutOfMemory => "out of memory",
    }
}

fn main() -> Result<(), Box<dyn Error>> {
    let mut host = Host::new()?;
    let payroll = Party::open(&mut host, "payroll", "november.txt")?;
    let survey = Party::open(&mut host, "survey", "spring.txt")?;
    loop {
        let (first, second) = (host.turn(payroll.session, 5)?, host.turn(survey.session, 5)?);
        if first.run != Run::Running && second.run != Run::Running {
            println!("payroll: {}\nsurvey: {}", shown(first.run), shown(second.run));
            break;
        }
    }
    payroll.print_view(&mut host, "Office")?;
    payroll.print_view(&mut host, "Staff")?;
    survey.print_view(&mut host, "Institute")?;
    survey.print_view(&mut host, "Ann")?;
    if let Err(refused) = host.open(b"no module", b"") {
        println!("a stranger's bytes: {refused}");
    }
    Ok(())
}
