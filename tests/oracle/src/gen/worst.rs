//! Jobs that are meant to take long: each drives one part of the work as far as the limits let it.

use super::bounds::Sheet;

/// A job and what it drives.
pub type Worst = (String, Vec<u8>);

pub fn worst_jobs() -> Vec<Worst> {
    let mut all = Vec::new();
    loads(&mut all);
    words(&mut all);
    variables(&mut all);
    lists(&mut all);
    searches(&mut all);
    elements(&mut all);
    walks(&mut all);
    retained(&mut all);
    isolations(&mut all);
    switches(&mut all);
    tables(&mut all);
    lines(&mut all);
    all
}

fn put(all: &mut Vec<Worst>, name: &str, sheet: Sheet) {
    let job = sheet.bytes();
    assert!(job.len() <= 65_536, "{} has {} bytes", name, job.len());
    all.push((name.to_string(), job));
}

/// Two letters for a number below 676.
fn two(k: usize) -> String {
    let letter = |n: usize| (b'a' + (n % 26) as u8) as char;
    format!("{}{}", letter(k / 26), letter(k))
}

/// A name of 64 bytes that ends in the number.
fn long(k: usize) -> String {
    format!("{}{:04}", "n".repeat(60), k)
}

fn domain(name: &str, elements: &str) -> String {
    format!(
        "create_power_domain {} -elements {{{}}}\nset_domain_supply_net {} -primary_power_net V -primary_ground_net V\n",
        name, elements, name
    )
}

/// `n` domains over the elements, by a file that is loaded again and again: the second domain of a name gets no supplies, so each has its own.
fn domains(n: usize, elements: &str) -> Sheet {
    let mut p = String::new();
    for k in 0..n {
        p.push_str(&format!("set D d{}; load_upf q\n", k));
    }
    let q = format!(
        "create_power_domain $D -elements {{{}}}\nset_domain_supply_net $D -primary_power_net V -primary_ground_net V\n",
        elements
    );
    Sheet::new(&p).file("q", &q)
}

/// top with an instance u of m; m has an instance u of itself, behind as many lines as fit into `bytes`.
fn ring(bytes: usize) -> String {
    let mut m = String::from("module=top\nstyle=empty\ninst=0 u m\nmodule=m\nstyle=empty\n");
    let from = m.len();
    let mut k = 0;
    while k < 63 && m.len() - from < bytes {
        m.push_str(&format!("inst=0 {} {}\n", long(k), long(k)));
        for c in 0..64 {
            if m.len() - from < bytes {
                m.push_str(&format!("conn=named {} {}\n", long(c), long(c)));
            }
        }
        k += 1;
    }
    m + "inst=0 u m\n"
}

fn loads(all: &mut Vec<Worst>) {
    let mut s = Sheet::new(&format!("{}load_upf f1\n", "puts x\n".repeat(59)));
    for k in 1..17 {
        let next = if k < 16 { format!("load_upf f{}\n", k + 1) } else { String::new() };
        s = s.file(&format!("f{}", k), &format!("{}{}", "puts x\n".repeat(59), next));
    }
    put(all, "16 nested loads, 1,020 commands", s);
    let s = Sheet::new(&"load_upf q\n".repeat(1000)).file("q", &format!("#{}\n", "x".repeat(54_000)));
    put(all, "a comment of 54,000 bytes loaded 1,000 times", s);
    let s = Sheet::new(&"load_upf q\n".repeat(1000)).file("q", &"\n".repeat(54_000));
    put(all, "54,000 empty lines loaded 1,000 times", s);
    let s =
        Sheet::new(&"load_upf q\n".repeat(500)).file("q", &format!("query_x {{{}}}\n", "{}".repeat(29_000)));
    put(all, "a braced word of 58,000 bytes read 500 times", s);
    let s = Sheet::new(&"load_upf q\n".repeat(500)).file("q", &format!("query_x{}\n", " {}".repeat(127)));
    put(all, "128 words read 500 times", s);
    let long = "d/".repeat(1000) + "q";
    let mut p = String::new();
    for _ in 0..12 {
        p.push_str(&format!("load_upf {}\n", long));
    }
    let mut s = Sheet::new(&p);
    for k in 0..14 {
        s = s.file(&format!("{}r{}", "d/".repeat(1000), k), "");
    }
    put(all, "paths of 2,000 bytes", s.file(&long, "puts x"));
}

fn words(all: &mut Vec<Worst>) {
    put(all, "256 unknown commands", Sheet::new(&"unknown_command_of_some_length a b c\n".repeat(256)));
    put(
        all,
        "1,024 commands, puts",
        Sheet::new(&"puts {some words that are written to the log}\n".repeat(1024)),
    );
    let one = format!("create_supply_port P{}\n", " -direction {in}".repeat(63));
    put(all, "options again and again", Sheet::new(&one.repeat(32)));
    let q = format!("set_isolation I -update{}\n", " -elements {a}".repeat(62));
    put(all, "a strategy updated 500 times", Sheet::new(&"load_upf q\n".repeat(500)).file("q", &q));
}

fn variables(all: &mut Vec<Worst>) {
    let name = |k: usize| format!("{}{:02}", "v".repeat(300), k);
    let mut p = String::new();
    for k in 0..64 {
        p.push_str(&format!("set {} {{}}\n", name(k)));
    }
    p.push_str(&"load_upf q\n".repeat(470));
    let q: String = (0..100).map(|k| format!(" ${}", name(k % 10))).collect();
    put(
        all,
        "variables with long names, known, 47,000 times",
        Sheet::new(&p).file("q", &format!("query_x{}\n", q)),
    );
    let p = format!("set a {}\nload_upf q\n", "b".repeat(160));
    put(all, "16,000 bytes of results", Sheet::new(&p).file("q", &format!("query_x {}\n", "$a".repeat(100))));
}

/// 64 entries of `size` bytes.
fn entries(size: usize) -> String {
    (0..64).map(|k| format!("{}{} ", "e".repeat(size - 3), two(k))).collect()
}

fn lists(all: &mut Vec<Worst>) {
    put(all, "16 lists of 64 entries of 900 bytes", domains(16, &entries(900)));
    put(
        all,
        "32 lists of 32 entries, quoted",
        domains(32, &format!("\"{}\" ", "\\a/".repeat(500)).repeat(32)),
    );
    put(all, "32 lists of one entry of 55,000 bytes", domains(32, &"x/".repeat(27_500)));
    put(all, "32 lists of comments", domains(32, &"# c\n".repeat(13_000)));
}

fn searches(all: &mut Vec<Worst>) {
    let mut m = String::from("module=top\nstyle=empty\n");
    (0..64).for_each(|k| m.push_str(&format!("inst=0 {} b\n", two(k))));
    m.push_str("module=b\nstyle=empty\n");
    (0..62).for_each(|k| m.push_str(&format!("inst=0 {} big\n", two(k))));
    m.push_str("module=big\nstyle=ansi\n");
    (0..64).for_each(|k| m.push_str(&format!("port=inout {}\n", long(k))));
    (0..128).for_each(|k| m.push_str(&format!("decl=net 0 {}\n", long(k))));
    m.push_str(&format!("inst=0 u {}\n", long(0)));
    (0..64).for_each(|k| m.push_str(&format!("conn=named {} {}\n", long(k), long(k))));
    let s = Sheet::new("set_design_top nowhere\n").mods(&m);
    put(all, "a type searched through 4,033 modules of 25,000 bytes", s);
    let mut m = ring(30_000);
    m.push_str("module=x\nstyle=empty\n");
    put(all, "an override of 15,000 parts", Sheet::new("").over(&"u/".repeat(15_000)).mods(&m));
    let p = "create_supply_net V; create_supply_net W\n";
    put(all, "an override of 30,000 parts", Sheet::new(p).over(&"u.".repeat(30_000)).mods(&ring(0)));
}

fn elements(all: &mut Vec<Worst>) {
    let path = |n: usize| "u/".repeat(n) + "u";
    put(all, "32 domains on an element of 15,000 parts", domains(32, &path(15_000)).mods(&ring(30_000)));
    put(all, "32 domains on an element of 28,000 parts", domains(32, &path(28_000)).mods(&ring(1_000)));
    let wrong = (0..64).map(|k| path(220) + "/" + &two(k) + " ").collect::<String>();
    put(
        all,
        "16 domains on 64 elements of 220 parts that lead nowhere",
        domains(16, &wrong).mods(&ring(30_000)),
    );
    let q = format!("set_isolation $D -domain D -elements {{{}/q}} -isolation_signal s\n", path(15_000));
    let p: String = (0..32).map(|k| format!("set D d{}; load_upf q\n", k)).collect();
    let p = format!("{}{}", domain("D", "u"), p);
    put(all, "32 strategies on an element of 15,000 parts", Sheet::new(&p).file("q", &q).mods(&ring(30_000)));
}

/// Two levels of 63 and 64 instances: 4,096 modules entered from an element u.
fn wide(leaf: &str) -> String {
    let mut m = String::from("module=top\nstyle=empty\ninst=0 u a\nmodule=a\nstyle=empty\n");
    (0..63).for_each(|k| m.push_str(&format!("inst=0 {} b\n", two(k))));
    m.push_str("module=b\nstyle=empty\n");
    (0..64).for_each(|k| m.push_str(&format!("inst=0 {} c\n", two(k))));
    m + "module=c\nstyle=ansi\n" + leaf
}

fn walks(all: &mut Vec<Worst>) {
    put(all, "32 walks of 4,096 modules", domains(32, "u").mods(&wide("")));
    let mut m = String::from("module=top\nstyle=empty\ninst=0 u a\nmodule=a\nstyle=empty\n");
    (0..16).for_each(|k| m.push_str(&format!("inst=0 {} b\n", two(k))));
    m.push_str("module=b\nstyle=empty\n");
    (0..64).for_each(|k| m.push_str(&format!("inst=0 {} c\n", two(k))));
    m.push_str("module=c\nstyle=ansi\nport=out q\n");
    put(all, "32 walks of 1,024 paths", domains(32, "u").mods(&m));
    put(all, "32 walks of 1,024 paths, three times each", domains(32, "u u u").mods(&m));
    let mut m = String::from("module=top\nstyle=empty\ninst=0 u a\nmodule=a\nstyle=empty\n");
    (0..8).for_each(|k| m.push_str(&format!("inst=0 {} c\n", two(k))));
    m.push_str("module=c\nstyle=ansi\n");
    (0..128).for_each(|k| m.push_str(&format!("decl=net 0 {}\n", two(k))));
    put(all, "16 walks of 1,024 paths, again from 64 elements", domains(16, &"u ".repeat(64)).mods(&m));
    let mut m = format!("module=top\nstyle=empty\ninst=0 {} m0\n", long(0));
    for k in 0..40 {
        m.push_str(&format!("module=m{}\nstyle=ansi\ninst=0 {} m{}\ninst=0 x m39\n", k, long(k), k + 1));
    }
    m.push_str("module=m40\nstyle=ansi\n");
    put(all, "32 walks 32 deep with names of 64 bytes", domains(32, &long(0)).mods(&m));
    let ring = "module=top\nstyle=empty\ninst=0 u a\nmodule=a\nstyle=empty\ninst=0 u a\n";
    put(
        all,
        "64 elements of 400 parts, each walked 32 deep, 16 domains",
        domains(16, &("u/".repeat(400) + "u ").repeat(64)).mods(ring),
    );
}

fn retained(all: &mut Vec<Worst>) {
    let list = |front: &str, k: usize| {
        (0..32).map(|n| format!("{}/{}/z{} ", front, two(n), two(n + k)[1..].to_string())).collect::<String>()
    };
    let mut s = domains(31, "u").mods(&wide(""));
    let mut q = String::new();
    for k in 0..30 {
        q.push_str(&format!("set_retention r{} -domain D -elements {{{}}}\n", k, list("u", k)));
    }
    s.files[0].1.extend(b"load_upf r\n");
    put(all, "31 walks of 4,096 modules beside 960 retained entries", s.file("r", &q));
    // the same far below: an element of 500 bytes of scope
    let deep =
        wide("").replace("inst=0 u a\n", "inst=0 u m\nmodule=m\nstyle=empty\ninst=0 u m\ninst=0 v a\n");
    let scope = "u/".repeat(252) + "v";
    let mut s = domains(16, ".").mods(&deep);
    let p: String = (0..16).map(|k| format!("set D d{}; load_upf q\n", k)).collect();
    s.files[0].1 = format!("set_scope {}\n{}load_upf r\n", scope, p).into_bytes();
    let q: String = (0..30)
        .map(|k| {
            let e: String = (0..32).map(|n| format!("{}/z{} ", two(n), &two(n + k)[1..])).collect();
            format!("set_retention r{} -domain D -elements {{{}}}\n", k, e)
        })
        .collect();
    put(
        all,
        "16 walks of 4,096 modules below a scope of 505 bytes beside 960 retained entries",
        s.file("r", &q),
    );
    // an element of 24,000 bytes, and retained entries as long
    let path = "u/".repeat(12_000) + "v";
    let mut s = domains(32, &path).mods(&deep);
    let r = format!("set_retention r -domain D -elements {{{}/aa/zz}}\n", path);
    s.files[0].1.extend("load_upf r\n".repeat(32).bytes());
    put(
        all,
        "32 walks of 4,096 modules below an element of 24,000 bytes beside 32 entries as long",
        s.file("r", &r),
    );
}

fn isolations(all: &mut Vec<Worst>) {
    let mut m = String::from("module=top\nstyle=empty\n");
    for k in 0..4 {
        m.push_str(&format!("inst=0 u{} a\nconn=star\n", k));
    }
    m.push_str("module=a\nstyle=ansi\n");
    (0..64).for_each(|k| m.push_str(&format!("port=out {}\n", long(k))));
    let p = |extra: &str| {
        let each = |k: usize| {
            format!("set_isolation I{} -domain D -isolation_signal s{} -clamp_value 0{}\n", k, k, extra)
        };
        domain("D", "u0 u1 u2 u3") + &(0..32).map(each).collect::<String>()
    };
    put(all, "256 isolated ports, 32 strategies", Sheet::new(&p("")).mods(&m));
    let some: String = (0..8).map(|k| format!("u0/{} ", long(k))).collect();
    put(
        all,
        "256 ports named by 32 strategies",
        Sheet::new(&p(&format!(" -elements {{{}}}", some))).mods(&m),
    );
    let apart: String = (0..32)
        .map(|k| {
            let e: String = (0..8).map(|n| format!("u{}/{} ", k % 4, long(k / 4 * 8 + n))).collect();
            format!(
                "set_isolation {} -domain D -isolation_signal {} -elements {{{}}}\n",
                long(k),
                long(31 - k),
                e
            )
        })
        .collect();
    put(
        all,
        "256 isolated ports, eight for each of 32 strategies",
        Sheet::new(&(domain("D", "u0 u1") + &apart)).mods(&m),
    );
    let no_net = m.replace("conn=star\n", "");
    put(all, "ports without a net, 512 warnings", Sheet::new(&p("")).mods(&no_net));
}

fn switches(all: &mut Vec<Worst>) {
    let p = |body: &str| {
        let run: String = (0..32).map(|k| format!("set D s{}; load_upf q\n", k)).collect();
        Sheet::new(&run).file("q", body)
    };
    // a switch may have 32 entries of lists: 1,024 in all
    let front = "create_power_switch $D -input_supply_port {i V} -output_supply_port {o W}";
    let ons = " -on_state {on i {c0 && !c1 || c2}}".repeat(8);
    put(
        all,
        "32 switches of eight on_state words",
        p(&format!("{} -control_port {{c0 n0 c1 n1}}{}\n", front, ons)),
    );
    let one =
        format!("{} -control_port {{c31 n31}} -on_state {{on i {{{}}}}}\n", front, "c31&".repeat(13_000));
    put(all, "32 switches with a condition of 52,000 bytes", p(&one));
    let net = "n".repeat(20_000);
    let one =
        format!("{} -control_port {{c {}}} -on_state {{on i {{{}}}}}\n", front, net, "c ".repeat(10_000));
    put(all, "32 switches whose condition grows to 200,000,000 bytes", p(&one));
    let offs = format!(" -off_state {{off {{{}}}}}", "x".repeat(4000)).repeat(12);
    put(
        all,
        "32 switches of twelve off_state words",
        p(&format!("{} -control_port {{c n}}{}\n", front, offs)),
    );
}

fn tables(all: &mut Vec<Worst>) {
    let mut p = String::new();
    for k in 0..32 {
        p.push_str(&format!("create_pst {} -supplies {{V}}\n", long(k)));
    }
    for k in 0..250 {
        p.push_str(&format!("add_pst_state s -pst {} -state {{o}}\n", &long(31 - k % 2)[1..]));
    }
    put(all, "250 states of unknown tables", Sheet::new(&p));
    let mut p = String::new();
    for k in 0..32 {
        p.push_str(&format!("create_pst {} -supplies {{V}}\n", two(k)));
    }
    for k in 0..900 {
        p.push_str(&format!("add_pst_state {} -pst {} -state {{o}}\n", two(k % 676), two(31 - k % 2)));
    }
    put(all, "900 states of 32 tables", Sheet::new(&p));
    let mut p = String::new();
    for k in 0..32 {
        p.push_str(&format!("create_supply_port {}; create_supply_net {}\n", long(k), long(k)));
    }
    for k in 0..900 {
        p.push_str(&format!("connect_supply_net {} -ports {}\n", two(k % 32), two(k % 676)));
    }
    put(all, "900 connections", Sheet::new(&p));
    let p: String = (0..900).map(|k| format!("create_supply_net {}\n", &long(k % 32)[30..])).collect();
    put(all, "32 nets created 900 times", Sheet::new(&p));
    let p: String =
        (0..32).map(|k| format!("add_port_state {}{}\n", long(k), " -state {on 1}".repeat(15))).collect();
    put(all, "32 port states of 15 words", Sheet::new(&p));
}

fn lines(all: &mut Vec<Worst>) {
    let mut m = String::new();
    for k in 0..128 {
        m.push_str(&format!("module={}\nstyle=empty\n", long(k)));
        for n in 0..4 {
            m.push_str(&format!("inst=0 {} {}\n", &long(n)[40..], &long((k + n + 1) % 128)));
        }
    }
    put(all, "128 modules with names of 64 bytes", Sheet::new(&domain("D", ".")).top(&long(0)).mods(&m));
    let mut m = String::from("module=top\nstyle=empty\n");
    for k in 0..64 {
        m.push_str(&format!("inst=0 {} x\n", long(k)));
        (0..64).for_each(|c| m.push_str(&format!("conn=pos {}\n", two(c))));
    }
    put(all, "64 instances of 64 connections", Sheet::new(&domain("D", ".")).mods(&m));
    let mut s = Sheet::new("");
    for k in 0..31 {
        s = s.file(&format!("{}{}", "d/".repeat(900), k), "");
    }
    put(all, "32 files with paths of 1,800 bytes", s);
}
