// Answers the cases of `replay`: paths by Rust's std::path, the rest by aya's items, which build-oracle appends.
use std::{
    ffi::{CStr, OsStr, OsString},
    fs,
    io::{self, BufRead as _, Cursor, Read as _},
    iter,
    os::unix::ffi::{OsStrExt as _, OsStringExt as _},
    path::{Path, PathBuf},
    sync::Mutex,
};

// What aya's look-up of a bare name fails with.
enum UProbeError {
    ProcMap { pid: u32, source: ProcMapError },
    InvalidLdSoCache { io_error: &'static io::Error },
    InvalidTarget { path: PathBuf },
}

// The cache of the case, in the place of the one that aya loads once.
struct CaseCache;
static LD_SO_CACHE: CaseCache = CaseCache;
static CASE: Mutex<Option<&'static Result<LdSoCache, io::Error>>> = Mutex::new(None);

impl CaseCache {
    fn as_ref(&self) -> Result<&'static LdSoCache, &'static io::Error> {
        CASE.lock().unwrap().unwrap().as_ref()
    }
}

fn bytes(word: &str) -> Option<Vec<u8>> {
    match word {
        "!" => None,
        "-" => Some(Vec::new()),
        _ => Some((0..word.len() / 2).map(|i| u8::from_str_radix(&word[2 * i..2 * i + 2], 16).unwrap()).collect()),
    }
}

fn hexadecimal(bytes: &[u8]) -> String {
    if bytes.is_empty() {
        return "-".into();
    }
    bytes.iter().map(|b| format!("{b:02x}")).collect()
}

fn optional(path: Option<&OsStr>) -> String {
    match path {
        Some(path) => format!("some {}", hexadecimal(path.as_bytes())),
        None => "none".into(),
    }
}

fn path(bytes: &[u8]) -> &Path {
    Path::new(OsStr::from_bytes(bytes))
}

fn part(word: &str, whole: &[u8], part: &[u8]) -> String {
    let place = part.as_ptr() as usize - whole.as_ptr() as usize;
    format!("{word} {place} {}", hexadecimal(part))
}

fn line(bytes: &[u8]) -> String {
    match ProcMapEntry::parse(bytes) {
        Ok(entry) => format!(
            "entry {} {} {} {} {} {} {}",
            entry.address,
            entry.address_end,
            entry.offset,
            entry.inode,
            hexadecimal(entry.perms.as_bytes()),
            hexadecimal(entry.dev.as_bytes()),
            optional(entry.path)
        ),
        Err(_) => "refused".into(),
    }
}

fn mapped(target: &[u8], maps: &[u8]) -> String {
    let map = ProcMap { pid: 1, data: maps };
    match map.find_library_path_by_name(path(target)) {
        Ok(Some(found)) => part("mapped", maps, found.as_os_str().as_bytes()),
        Ok(None) => "none".into(),
        Err(_) => "refused line".into(),
    }
}

fn cache(bytes: &[u8]) -> String {
    match LdSoCache::parse(bytes) {
        Ok(cache) => {
            let mut out = format!("entries {}", cache.entries.len());
            for entry in &cache.entries {
                out += &format!(" {}={}", hexadecimal(entry.key.as_bytes()), hexadecimal(entry.value.as_bytes()));
            }
            out
        }
        Err(_) => "refused cache".into(),
    }
}

// aya's attach, as far as the target goes. A cached value has no place there, so that none is printed.
fn target(words: &[Option<Vec<u8>>]) -> String {
    let name = words[0].as_deref().unwrap();
    if !is_basename_only(path(name)) {
        return part("given", name, name);
    }
    let all = words[1].as_deref().unwrap().is_empty();
    if !all && words[2].is_none() {
        return "refused 7".into();
    }
    let data = words[2].clone().unwrap_or_default();
    let map = ProcMap { pid: 1, data: data.as_slice() };
    let loaded = match words[3].as_deref() {
        Some(bytes) => LdSoCache::parse(bytes),
        None => Err(io::Error::other("unreadable")),
    };
    let unreadable = words[3].is_none();
    *CASE.lock().unwrap() = Some(Box::leak(Box::new(loaded)));
    match resolve_attach_target_basename(path(name), if all { None } else { Some(&map) }) {
        Ok(found) => {
            let found = found.as_os_str().as_bytes();
            let range = data.as_ptr_range();
            if !all && range.contains(&found.as_ptr()) {
                part("mapped", &data, found)
            } else {
                format!("cached {}", hexadecimal(found))
            }
        }
        Err(UProbeError::ProcMap { .. }) => "refused 3".into(),
        Err(UProbeError::InvalidLdSoCache { .. }) if unreadable => "refused 8".into(),
        Err(UProbeError::InvalidLdSoCache { .. }) => "refused cache".into(),
        Err(UProbeError::InvalidTarget { .. }) => "refused 9".into(),
    }
}

fn offset(bytes: &[u8]) -> String {
    let n = |i: usize| u64::from_be_bytes(bytes[8 * i..8 * i + 8].try_into().unwrap());
    match UProbeAttachLocation::from_virtual_address(n(0), n(1), n(2)) {
        Ok(UProbeAttachLocation::AbsoluteOffset(offset)) => format!("offset {offset}"),
        Ok(_) => "unknown".into(),
        Err(UProbeAttachLocationError::AddressNotInSection { .. }) => "refused 1".into(),
        Err(UProbeAttachLocationError::FileOffsetOverflow { .. }) => "refused 2".into(),
    }
}

fn main() {
    for case in io::stdin().lock().lines() {
        let case = case.unwrap();
        let mut words = case.split(' ');
        let question = words.next().unwrap();
        let inputs: Vec<Option<Vec<u8>>> = words.map(bytes).collect();
        let input = |i: usize| inputs.get(i).and_then(|x| x.as_deref()).unwrap_or(b"");
        println!(
            "{}",
            match question {
                "name" => optional(path(input(0)).file_name()),
                "parent" => optional(path(input(0)).parent().map(Path::as_os_str)),
                "join" => optional(Some(path(input(0)).join(path(input(1))).as_os_str())),
                "line" => line(input(0)),
                "maps" => mapped(input(0), input(1)),
                "cache" => cache(input(0)),
                "target" => target(&inputs),
                "offset" => offset(input(0)),
                _ => "unknown".into(),
            }
        );
    }
}
