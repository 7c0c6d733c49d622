//! Takes T and its three companions from a checkout of csh1668/pyhyeon, checks that they are the texts
//! this oracle was written for, and writes into OUT_DIR what `src/semantic.rs` and its neighbours include:
//!
//! - `as_is.rs`    T, byte for byte;
//! - `framed.rs`   T with the module frame handed out at the end, and an end at a ninth frame;
//! - `sorted.rs`   the same, with the names of a merge taken in byte order, and a note where their order shows;
//! - `strict_*.rs` these three, with the four dropped results handed on: document 02's strict;
//! - `ast.rs`      the tree, byte for byte;
//! - `arity.rs`    `Arity` cut from type_def.rs, whose rest needs crates and files that are not given;
//! - `builtin.rs`  `BuiltinFunction` cut from builtins.rs, whose REGISTRY the image's name records replace.
//!
//! Nothing of T stands in this repository. An edit that does not change exactly the lines it means to
//! change fails the build.

use std::env;
use std::fs;
use std::path::{Path, PathBuf};

/// Where T lies if PYHYEON_SRC does not say, seen from this folder.
const DEFAULT_SOURCE: &str = "../../pyhyeon";

/// The texts at commit 1add17642f, by path below the checkout, with their SHA-256.
const TYPECHECK: (&str, &str) =
    ("src/semantic/typecheck.rs", "00e1f85cc6ea1c88cde31d9994b6bc9deec54ac85f2cf4f436321b19fd4cff24");
const AST: (&str, &str) = ("src/parser/ast.rs", "4768ddb35e74d02a656d1ab65a9e86714083fea662921e2c94abbf5dce3b6199");
const TYPE_DEF: (&str, &str) =
    ("src/vm/type_def.rs", "e911a8a8089fd7e9a1d3e08086d3229af4fb7ed70f3e8f148f57e22532c0bc81");
const BUILTINS: (&str, &str) = ("src/builtins.rs", "c630f59fef184a77b32853ef523c6768797282e8f7b444d12f8626aee88f2328");

/// One mechanical edit: whole lines that stand exactly once in T, and what stands there instead.
struct Edit {
    /// Its first line, from 1: stated, so that an edit elsewhere is noticed.
    line: usize,
    /// How many of its lines it changes.
    changes: usize,
    old: &'static str,
    new: &'static str,
}

/// The end of `typecheck_program` hands out its frames, and a Def asks for room before it pushes one.
const FRAMED: [Edit; 3] = [
    Edit {
        line: 57,
        changes: 1,
        old: "pub fn typecheck_program(program: &[StmtS], ctx: &super::ProgramContext) -> SemanticResult<()> {\n",
        new: "pub fn typecheck_program(program: &[StmtS], ctx: &super::ProgramContext) -> SemanticResult<super::Frames> {\n",
    },
    Edit {
        line: 63,
        changes: 1,
        old: "        tc_stmt(stmt, &mut tenv, ctx, &mut Some(Ty::Unknown), false)?;\n    }\n    Ok(())\n",
        new: "        tc_stmt(stmt, &mut tenv, ctx, &mut Some(Ty::Unknown), false)?;\n    }\n    Ok(handed_out(&tenv))\n",
    },
    Edit {
        line: 269,
        changes: 1,
        old: "            tenv.push();\n",
        new: "            super::room_for_a_frame(tenv.frames.len(), &stmt.1); tenv.push();\n",
    },
];

/// The merge goes by name in byte order, and tells when it ends in a refusal.
const SORTED: [Edit; 2] = [
    Edit {
        line: 184,
        changes: 1,
        old: "            for var in all_assigned {\n",
        new: "            for var in super::in_byte_order(all_assigned) {\n",
    },
    Edit {
        line: 197,
        changes: 1,
        old: "                                        span: condition.1.clone(),\n",
        new: "                                        span: super::merge_refused(condition.1.clone()),\n",
    },
];

/// The results that T drops, of a then, an elif, an else and a While's body, are handed on: `let _ = ..` becomes `..?`.
const STRICT: [Edit; 5] = [
    Edit {
        line: 141,
        changes: 3,
        old: "                for s in then_block {\n                    let _ = tc_stmt(s, e, ctx, current_fn_return, in_loop);\n                }\n            });\n",
        new: "                for s in then_block {\n                    tc_stmt(s, e, ctx, current_fn_return, in_loop)?;\n                } Ok(())\n            })?;\n",
    },
    Edit {
        line: 153,
        changes: 3,
        old: "                with_env(&mut env_i, |e| {\n                    for s in block {\n                        let _ = tc_stmt(s, e, ctx, current_fn_return, in_loop);\n                    }\n                });\n",
        new: "                with_env(&mut env_i, |e| {\n                    for s in block {\n                        tc_stmt(s, e, ctx, current_fn_return, in_loop)?;\n                    } Ok(())\n                })?;\n",
    },
    Edit {
        line: 167,
        changes: 3,
        old: "                with_env(&mut else_env, |e| {\n                    for s in block {\n                        let _ = tc_stmt(s, e, ctx, current_fn_return, in_loop);\n                    }\n                });\n",
        new: "                with_env(&mut else_env, |e| {\n                    for s in block {\n                        tc_stmt(s, e, ctx, current_fn_return, in_loop)?;\n                    } Ok(())\n                })?;\n",
    },
    Edit {
        line: 218,
        changes: 3,
        old: "                for s in body {\n                    let _ = tc_stmt(s, e, ctx, current_fn_return, true);\n                }\n            });\n",
        new: "                for s in body {\n                    tc_stmt(s, e, ctx, current_fn_return, true)?;\n                } Ok(())\n            })?;\n",
    },
    Edit {
        line: 937,
        changes: 2,
        old: "fn with_env<F: FnOnce(&mut TypeEnv)>(tenv: &mut TypeEnv, f: F) {\n    f(tenv);\n",
        new: "fn with_env<F: FnOnce(&mut TypeEnv) -> SemanticResult<()>>(tenv: &mut TypeEnv, f: F) -> SemanticResult<()> {\n    f(tenv)\n",
    },
];

/// What `framed.rs` and `sorted.rs` have below T's last line: T's private types as trees that others can read.
const HANDED_OUT: &str = "\
fn handed_out(tenv: &TypeEnv) -> super::Frames {
    let names = |f: &HashMap<String, Ty>| f.iter().map(|(n, t)| (n.clone(), tree(t))).collect();
    tenv.frames.iter().map(names).collect()
}
fn tree(t: &Ty) -> super::Tree {
    match t {
        Ty::Int => super::Tree::Int,
        Ty::Bool => super::Tree::Bool,
        Ty::String => super::Tree::String,
        Ty::Float => super::Tree::Float,
        Ty::NoneType => super::Tree::NoneType,
        Ty::Unknown => super::Tree::Unknown,
        Ty::List(e) => super::Tree::List(Box::new(tree(e))),
        Ty::Dict(k, v) => super::Tree::Dict(Box::new(tree(k)), Box::new(tree(v))),
        Ty::Tuple(ts) => super::Tree::Tuple(ts.iter().map(tree).collect()),
        Ty::Range => super::Tree::Range,
        Ty::Function => super::Tree::Function,
        Ty::MapIter(e) => super::Tree::MapIter(Box::new(tree(e))),
        Ty::FilterIter(e) => super::Tree::FilterIter(Box::new(tree(e))),
    }
}
";

fn main() {
    println!("cargo:rerun-if-changed=build.rs");
    println!("cargo:rerun-if-env-changed=PYHYEON_SRC");
    let source = source_folder();

    let typecheck = read_checked(&source, TYPECHECK);
    let ast = read_checked(&source, AST);
    let type_def = read_checked(&source, TYPE_DEF);
    let builtins = read_checked(&source, BUILTINS);

    let framed = edited(&typecheck, &FRAMED);
    let sorted = edited(&framed, &SORTED);

    let arity = cut(
        &type_def,
        "#[derive(Debug, Clone, Copy, PartialEq, Eq)]\npub enum Arity {\n",
        "\n// ========== 타입 ID 상수 ==========\n",
    );
    let builtin = cut(
        &builtins,
        "#[derive(Debug, Clone, Copy)]\npub struct BuiltinFunction {\n",
        "\nconst PRINT: BuiltinFunction = ",
    );

    write("strict_as_is.rs", &edited(&typecheck, &STRICT));
    write("strict_framed.rs", &(edited(&framed, &STRICT) + HANDED_OUT));
    write("strict_sorted.rs", &(edited(&sorted, &STRICT) + HANDED_OUT));
    write("as_is.rs", &typecheck);
    write("framed.rs", &(framed + HANDED_OUT));
    write("sorted.rs", &(sorted + HANDED_OUT));
    write("ast.rs", &ast);
    write("arity.rs", arity);
    write("builtin.rs", builtin);
}

/// The checkout: what PYHYEON_SRC names (relative to where cargo was started, or to this folder), or the default.
fn source_folder() -> PathBuf {
    let here = PathBuf::from(env::var_os("CARGO_MANIFEST_DIR").expect("cargo sets CARGO_MANIFEST_DIR"));
    let named = env::var_os("PYHYEON_SRC").map(PathBuf::from);
    let folder = match named {
        Some(folder) => here.join(folder),
        None => here.join(DEFAULT_SOURCE),
    };
    if !folder.join(TYPECHECK.0).is_file() {
        fail(&format!(
            "no {} below {}: set PYHYEON_SRC to a checkout of csh1668/pyhyeon (an absolute path, or one relative to the oracle's folder)",
            TYPECHECK.0,
            folder.display()
        ));
    }
    folder
}

fn read_checked(source: &Path, (path, wanted): (&str, &str)) -> String {
    let full = source.join(path);
    println!("cargo:rerun-if-changed={}", full.display());
    let bytes = match fs::read(&full) {
        Ok(bytes) => bytes,
        Err(e) => fail(&format!("{}: {}", full.display(), e)),
    };
    let found = sha256(&bytes);
    if found != wanted {
        fail(&format!(
            "{} is not the text this oracle was written for: SHA-256 {}, wanted {}",
            full.display(),
            found,
            wanted
        ));
    }
    match String::from_utf8(bytes) {
        Ok(text) => text,
        Err(e) => fail(&format!("{}: {}", full.display(), e)),
    }
}

/// `text` with the edits made, each checked to stand exactly once, on its line, and to keep the line count;
/// afterwards exactly the lines that the edits mean to change differ.
fn edited(text: &str, edits: &[Edit]) -> String {
    let mut result = text.to_string();
    let mut meant: Vec<usize> = Vec::new();
    for edit in edits {
        let places: Vec<usize> = result.match_indices(edit.old).map(|(at, _)| at).collect();
        if places.len() != 1 {
            fail(&format!("the edit at line {} fits {} places, not 1", edit.line, places.len()));
        }
        let line = 1 + result[..places[0]].matches('\n').count();
        if line != edit.line || !(places[0] == 0 || result.as_bytes()[places[0] - 1] == b'\n') {
            fail(&format!("the edit meant for line {} fits at line {}", edit.line, line));
        }
        let pairs = edit.old.lines().zip(edit.new.lines()).enumerate();
        let changed: Vec<usize> = pairs.filter(|(_, (old, new))| old != new).map(|(k, _)| edit.line + k).collect();
        if changed.len() != edit.changes {
            fail(&format!("the edit at line {} changes {} lines, not {}", edit.line, changed.len(), edit.changes));
        }
        meant.extend(changed);
        result = result.replacen(edit.old, edit.new, 1);
    }
    meant.sort_unstable();
    if result.lines().count() != text.lines().count() {
        fail("an edit changed the number of lines");
    }
    let differ = text.lines().zip(result.lines()).enumerate().filter(|(_, (a, b))| a != b);
    let changed: Vec<usize> = differ.map(|(i, _)| i + 1).collect();
    if changed != meant {
        fail(&format!("the edits changed lines {:?}, and were meant for {:?}", changed, meant));
    }
    result
}

/// The part of `text` from `first` up to `after`, both of which stand exactly once.
fn cut<'a>(text: &'a str, first: &str, after: &str) -> &'a str {
    let only = |what: &str| -> usize {
        let places: Vec<usize> = text.match_indices(what).map(|(at, _)| at).collect();
        if places.len() != 1 {
            fail(&format!("{:?} stands {} times, not once", what, places.len()));
        }
        places[0]
    };
    &text[only(first)..only(after)]
}

fn write(name: &str, text: &str) {
    let out = PathBuf::from(env::var_os("OUT_DIR").expect("cargo sets OUT_DIR"));
    if let Err(e) = fs::write(out.join(name), text) {
        fail(&format!("{}: {}", name, e));
    }
}

fn fail(why: &str) -> ! {
    eprintln!("oracle: {}", why);
    std::process::exit(1);
}

/// SHA-256 (FIPS 180-4) in hexadecimal.
fn sha256(message: &[u8]) -> String {
    // The constants are the first 32 bits of the fractional parts of cube and square roots of primes.
    const K: [u32; 64] = [
        0x428a2f98, 0x71374491, 0xb5c0fbcf, 0xe9b5dba5, 0x3956c25b, 0x59f111f1, 0x923f82a4, 0xab1c5ed5, 0xd807aa98,
        0x12835b01, 0x243185be, 0x550c7dc3, 0x72be5d74, 0x80deb1fe, 0x9bdc06a7, 0xc19bf174, 0xe49b69c1, 0xefbe4786,
        0x0fc19dc6, 0x240ca1cc, 0x2de92c6f, 0x4a7484aa, 0x5cb0a9dc, 0x76f988da, 0x983e5152, 0xa831c66d, 0xb00327c8,
        0xbf597fc7, 0xc6e00bf3, 0xd5a79147, 0x06ca6351, 0x14292967, 0x27b70a85, 0x2e1b2138, 0x4d2c6dfc, 0x53380d13,
        0x650a7354, 0x766a0abb, 0x81c2c92e, 0x92722c85, 0xa2bfe8a1, 0xa81a664b, 0xc24b8b70, 0xc76c51a3, 0xd192e819,
        0xd6990624, 0xf40e3585, 0x106aa070, 0x19a4c116, 0x1e376c08, 0x2748774c, 0x34b0bcb5, 0x391c0cb3, 0x4ed8aa4a,
        0x5b9cca4f, 0x682e6ff3, 0x748f82ee, 0x78a5636f, 0x84c87814, 0x8cc70208, 0x90befffa, 0xa4506ceb, 0xbef9a3f7,
        0xc67178f2,
    ];
    let mut hash: [u32; 8] =
        [0x6a09e667, 0xbb67ae85, 0x3c6ef372, 0xa54ff53a, 0x510e527f, 0x9b05688c, 0x1f83d9ab, 0x5be0cd19];
    let mut padded = message.to_vec();
    padded.push(0x80);
    while padded.len() % 64 != 56 {
        padded.push(0);
    }
    padded.extend_from_slice(&(message.len() as u64 * 8).to_be_bytes());
    for block in padded.chunks(64) {
        let mut w = [0u32; 64];
        for i in 0..64 {
            w[i] = if i < 16 {
                u32::from_be_bytes([block[4 * i], block[4 * i + 1], block[4 * i + 2], block[4 * i + 3]])
            } else {
                let s0 = w[i - 15].rotate_right(7) ^ w[i - 15].rotate_right(18) ^ (w[i - 15] >> 3);
                let s1 = w[i - 2].rotate_right(17) ^ w[i - 2].rotate_right(19) ^ (w[i - 2] >> 10);
                w[i - 16].wrapping_add(s0).wrapping_add(w[i - 7]).wrapping_add(s1)
            };
        }
        let [mut a, mut b, mut c, mut d, mut e, mut f, mut g, mut h] = hash;
        for i in 0..64 {
            let s1 = e.rotate_right(6) ^ e.rotate_right(11) ^ e.rotate_right(25);
            let choice = (e & f) ^ (!e & g);
            let t1 = h.wrapping_add(s1).wrapping_add(choice).wrapping_add(K[i]).wrapping_add(w[i]);
            let s0 = a.rotate_right(2) ^ a.rotate_right(13) ^ a.rotate_right(22);
            let majority = (a & b) ^ (a & c) ^ (b & c);
            let t2 = s0.wrapping_add(majority);
            h = g;
            g = f;
            f = e;
            e = d.wrapping_add(t1);
            d = c;
            c = b;
            b = a;
            a = t1.wrapping_add(t2);
        }
        for (old, new) in hash.iter_mut().zip([a, b, c, d, e, f, g, h]) {
            *old = old.wrapping_add(new);
        }
    }
    hash.iter().map(|word| format!("{:08x}", word)).collect()
}
