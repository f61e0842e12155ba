//! Compiles the scope paper's schedule manifest for the device "desk", with steps enough and with one too few, and asks
//! why labels count for the kiosk's price. Then converts a text, compiles its manifest, prints that as text again, and
//! converts a text that is outside the notation. Last come the four calls with lists of types, one of them wrong.

#[path = "../rigbanut.rs"]
mod rigbanut;

use rigbanut::{type_list, Compiler, Outcome, Question, Refusal};

/// A field: its tag, the length of its body, the body.
fn field(tag: u8, parts: &[&[u8]]) -> Vec<u8> {
    let body = parts.concat();
    let mut bytes = vec![tag];
    bytes.extend((body.len() as u16).to_be_bytes());
    bytes.extend(body);
    bytes
}

/// An integer constant with its label.
fn integer(label: u8, value: i64) -> Vec<u8> {
    field(0x10, &[&[label], &value.to_be_bytes()])
}

/// The names are places in the table of strings: 0 fee, 1 front, 2 kiosk, 3 peak, 4 price, 5 screens.
fn manifest() -> Vec<u8> {
    let strings =
        ["fee", "front", "kiosk", "peak", "price", "screens"].map(|string| field(0x02, &[string.as_bytes()]));
    let table = field(0x01, &[&strings.concat()]);
    let fee = field(0x21, &[&[0, 0], &integer(1, 40)]);
    let peak = field(0x21, &[&[0, 3], &field(0x12, &[&[2, 0]])]);
    let dearer = field(0x21, &[&[0, 0], &integer(3, 55)]);
    let if_peak = field(
        0x22,
        &[
            &field(0x13, &[&[0, 3]]),
            &field(0x20, &[&dearer]),
            &field(0x20, &[]),
        ],
    );
    let price = field(0x26, &[&[0, 4], &field(0x13, &[&[0, 0]])]);
    let screens = field(0x26, &[&[0, 5], &integer(5, 2)]);
    let kiosk = field(0x25, &[&[0, 2], &field(0x11, &[&[4], &[0, 1]]), &price, &screens]);
    let node = field(0x30, &[&field(0x1B, &[]), &field(0x20, &[&if_peak, &kiosk])]);
    [table, fee, peak, node].concat()
}

const TEXT: &str = r#"$fee = 40
$peak = false
node desk { if $peak { $fee = 55 }
  kiosk { "front":
    price => $fee, screens => 2 } }
"#;

fn say(outcome: Outcome<'_>) {
    match outcome {
        Outcome::Refused(refusal) => println!("{refusal}"),
        Outcome::Accepted { catalog, steps } => {
            println!("accepted: {} bytes in {steps} steps", catalog.len());
            let hex: String = catalog.iter().map(|byte| format!("{byte:02x}")).collect();
            println!("{hex}");
        }
    }
}

fn compile(compiler: &mut Compiler, manifest: &[u8], limit: u16) {
    say(compiler.compile(manifest, b"desk", limit));
}

fn of_kiosk(attribute: &str, label: u8) -> Question<'_> {
    Question {
        kind: b"kiosk",
        title: b"front",
        attribute: attribute.as_bytes(),
        label,
    }
}

fn why(compiler: &mut Compiler, manifest: &[u8], attribute: &str, label: u8) {
    match compiler.why(manifest, b"desk", of_kiosk(attribute, label)) {
        Err(refusal) => println!("{refusal}"),
        Ok(why) => println!("label {label}: {why}"),
    }
}

/// Labels 1, 2 and 4 decide the price. The places are the offsets of their constants in the manifest.
fn why_all(compiler: &mut Compiler, manifest: &[u8]) {
    // fee = 40, at 55: the price reads this fee.
    why(compiler, manifest, "price", 1);
    // peak = false, at 72. The kiosk stands behind the `if`, not in it, so 2 is not in the path. But a branch of the
    // `if` assigns fee, though it is not taken: so 2 is in the mark of fee in the node's scope, and reading fee tries
    // that scope before the top, where fee has its value.
    why(compiler, manifest, "price", 2);
    // fee = 55 is never evaluated.
    why(compiler, manifest, "price", 3);
    // The title "front", at 122. A resource's labels are among those of each of its attributes.
    why(compiler, manifest, "price", 4);
    why(compiler, manifest, "colour", 4);
}

fn texts(compiler: &mut Compiler) -> Result<(), Refusal> {
    let manifest = compiler.convert(TEXT.as_bytes())?.to_vec();
    println!("converted: {} bytes", manifest.len());
    compile(compiler, &manifest, 4);
    print!("{}", String::from_utf8_lossy(compiler.print(&manifest)?));
    compiler.convert(b"$fee == 40\n")?;
    Ok(())
}

const BENCH_TEXT: &str = "node default { bench { 'hall': seats => 12 } }\n";

/// Two types, in rising order; and two that fall, which is refused at the second.
fn with_types(compiler: &mut Compiler, manifest: &[u8]) -> Result<(), Refusal> {
    let own_types = type_list(&["bench", "kiosk"]);
    let falling = type_list(&["kiosk", "bench"]);
    say(compiler.compile_with_types(&own_types, manifest, b"desk", 4));
    let why = compiler.why_with_types(&own_types, manifest, b"desk", of_kiosk("price", 4))?;
    println!("label 4: {why}");
    let converted = compiler.convert_with_types(&own_types, BENCH_TEXT.as_bytes())?.to_vec();
    println!("converted: {} bytes", converted.len());
    print!("{}", String::from_utf8_lossy(compiler.print_with_types(&own_types, &converted)?));
    // No bench is among the eight.
    compile(compiler, &converted, 4);
    say(compiler.compile_with_types(&falling, manifest, b"desk", 4));
    Ok(())
}

fn main() {
    let manifest = manifest();
    let mut compiler = Compiler::new();
    for limit in [4, 3] {
        compile(&mut compiler, &manifest, limit);
    }
    why_all(&mut compiler, &manifest);
    if let Err(refusal) = texts(&mut compiler) {
        println!("{refusal}");
    }
    if let Err(refusal) = with_types(&mut compiler, &manifest) {
        println!("{refusal}");
    }
}
