//! The compile call: checks 1, 28 and 2, the reading, the run, and what is left
//! in the bytes lent.

use crate::answer::{Answer, Reason, Refusal};
use crate::machine::{self, Finished};
use crate::reader;
use crate::tree::Tree;
use crate::types::Types;
use crate::watch::Nobody;

/// "The working memory is shorter than 65,536 bytes."
pub const LEAST_MEMORY: usize = 65_536;
/// "A manifest has 1 to 65,535 bytes".
pub const LONGEST_MANIFEST: usize = 65_535;

/// Compiles a manifest for a device, with the eight built-in types.
pub fn compile(manifest: &[u8], device: &[u8], limit: u16, out: &mut [u8], work: &mut [u8]) -> Answer {
    compile_with_types(None, manifest, device, limit, out, work)
}

/// Compiles a manifest for a device, with the types of a list if one is lent.
///
/// After a catalog the output holds it and zeros after it; after a refusal the
/// output is zero throughout. The working memory is zero throughout after every
/// call (this program keeps its own storage and uses none of it).
pub fn compile_with_types(
    types: Option<&[u8]>,
    manifest: &[u8],
    device: &[u8],
    limit: u16,
    out: &mut [u8],
    work: &mut [u8],
) -> Answer {
    work.fill(0);
    out.fill(0);
    match attempt(types, manifest, device, limit, out, work.len()) {
        Ok(Finished { length, steps }) => Answer::Catalog { length, steps },
        Err(refusal) => {
            out.fill(0);
            refusal.into()
        }
    }
}

fn attempt(
    types: Option<&[u8]>,
    manifest: &[u8],
    device: &[u8],
    limit: u16,
    out: &mut [u8],
    memory: usize,
) -> Result<Finished, Refusal> {
    let types = admit(types, memory)?;
    let tree = read(manifest)?;
    machine::run(&tree, &types, device, limit, out, &Nobody)
}

/// What every call checks first: 1, then 28, "checked next after 1, also before
/// 24". Gives the types that are built in for it.
pub fn admit(types: Option<&[u8]>, memory: usize) -> Result<Types<'_>, Refusal> {
    if memory < LEAST_MEMORY {
        return Err(Reason::Memory.at(0));
    }
    Types::of(types)
}

/// What every call that is given a manifest checks next: refusals 2 to 5. 8 is
/// given after them, where a manifest is to run.
pub fn read(manifest: &[u8]) -> Result<Tree<'_>, Refusal> {
    if manifest.is_empty() || manifest.len() > LONGEST_MANIFEST {
        return Err(Reason::Length.at(0));
    }
    reader::read(manifest)
}
