"""A small repository, of a library and a program, over which the tools themselves are tested."""
import os

FILES = {
    "crates.txt": "small:\nsmall_program: small\n",
    "HANDLES": "Handles allowed: none.\n",
    "crates/small/src/lib.rt": """//! The greater of two numbers, the greatest of three, and twice a number.
#![tactic(auto)]

mod numbers;

pub use numbers::{double, greater, greatest};
""",
    "crates/small/src/numbers.rt": """//! The greater of two numbers, the greatest of three, and twice a number.
ghost use Rattle.std.specs.Prelude.{◌≡◌, ◌≤◌};
ghost use Rattle.small.specs.Double.{twice};
ghost use Rattle.small.specs.Greatest.{IsGreater};

/// Returns the greater of the two.
pub fn greater(a: u32, b: u32) -> u32
    ensures { IsGreater a b result }
{
    if a < b { b } else { a }
}

/// Returns one that none of the three is above.
pub fn greatest(a: u32, b: u32, c: u32) -> u32
    ensures { (a ≤ result) × (b ≤ result) × (c ≤ result) }
{
    greater(greater(a, b), c)
}

/// Returns twice the number.
pub fn double(a: u8) -> u32
    ensures { result ≡ twice a }
{
    // (two octets have a sum that may be none)
    u32::from(a) + u32::from(a)
}
""",
    "crates/small/specs/Lib.antt": "pub mod Double\npub mod Greatest\n",
    "crates/small/specs/Double.antt": """-- Twice a number.
use Rattle.std.specs.Prelude.{ℕ, ◌+◌}

abbrev pub twice : ℕ → ℕ
twice a = a + a
""",
    "crates/small/specs/Greatest.antt": """-- The greater of two numbers.
use Rattle.std.specs.Prelude.{◌≡◌, ◌≤◌, ◌⊎◌, ℕ}

-- one of the two, and neither is above it
abbrev pub IsGreater : ℕ → ℕ → ℕ → Type 0
IsGreater a b greater = ((greater ≡ a) ⊎ (greater ≡ b)) × ((a ≤ greater) × (b ≤ greater))
""",
    "crates/small/proofs/Lib.antt": "mod Sums\n",
    "crates/small/proofs/Sums.antt": """-- The sum of a number and itself.
use Rattle.std.specs.Prelude.{◌≡◌, ℕ, ◌+◌, refl}

pub sum_is_itself : (a : ℕ) → a + a ≡ a + a
sum_is_itself a = refl
""",
    "crates/small/wrong/numbers.edits": """file: src/numbers.rt

wrong: lesser_of_the_two
old:     if a < b { b } else { a }
new:     if a < b { a } else { b }

wrong: third_left_out
old:     greater(greater(a, b), c)
new:     greater(greater(a, b), b)

wrong: double_and_one
old:     u32::from(a) + u32::from(a)
new:     u32::from(a) + u32::from(a) + 1
""",
    "crates/small_program/src/main.rt": """//! Prints the greatest of three numbers.
#![tactic(auto)]

use small::greatest;

fn main(rt: HostRuntime) {
    let _ = println!(rt; "{}", greatest(1, 3, 2));
}
""",
}


def make(folder):
    """Writes the repository into the folder."""
    for path, text in FILES.items():
        change(folder, path, "", text)


def change(folder, path, old, new):
    """Replaces a text that stands once in a file of the repository, or makes the file."""
    file = f"{folder}/{path}"
    os.makedirs(os.path.dirname(file), exist_ok=True)
    text = new
    if old:
        with open(file, encoding="utf-8") as it:
            text = it.read()
        assert text.count(old) == 1, f"{path} doesn't have {old!r} once"
        text = text.replace(old, new)
    with open(file, "w", encoding="utf-8") as it:
        it.write(text)
