//! The jobs that are timed.

/// A job with its name.
pub type Named = (String, Vec<u8>);

/// A table of the results: its title, what grows in it, and the jobs with that number.
pub struct Family {
    pub title: &'static str,
    pub grows: &'static str,
    pub jobs: Vec<(usize, Named)>,
}

fn job(files: &[(&str, String)], modules: &str) -> Vec<u8> {
    let mut out = format!("top=top\noverride=\nstart={}\n", files[0].0);
    for (path, body) in files {
        out += &format!("file={path}\nbytes={}\n{body}\n", body.len());
    }
    out += modules;
    (out + "end=\n").into_bytes()
}

fn supplied(name: &str, elements: &str, power: &str) -> String {
    format!(
        "create_power_domain {name} -elements {{{elements}}}\n\
         set_domain_supply_net {name} -primary_power_net {power} -primary_ground_net VSS\n"
    )
}

/// A block of a chip: a module with three parts below it.
fn block(k: usize) -> String {
    let mut m = format!("module=block{k}\nstyle=ansi\nport=in clk\nport=in rst_n\nport=in request\n");
    for p in 0..6 {
        m += &format!("port=out result_{p}\n");
    }
    for d in 0..12 {
        m += &format!("decl=data 0 state_{d}\n");
    }
    for part in ["fetch", "execute", "store"] {
        m += &format!("inst=0 u_{part} {part}{k}\nconn=named clk clk\nconn=named ready state_0\nconn=star\n");
    }
    for part in ["fetch", "execute", "store"] {
        m += &format!("module={part}{k}\nstyle=ansi\nport=in clk\nport=out ready\nport=out data_out\n");
        for d in 0..8 {
            m += &format!("decl={} 0 {part}_reg_{d}\n", if d % 4 == 3 { "odd" } else { "data" });
        }
    }
    m
}

/// The intent of a block: domain, switched supply, isolation, retention.
fn intent(k: usize) -> String {
    let mut p = format!("create_supply_net VDD_{k}\n")
        + &supplied(&format!("PD_{k}"), &format!("u_block{k}"), &format!("VDD_{k}"));
    p += &format!(
        "create_power_switch SW_{k} -domain PD_{k} -input_supply_port {{in VDD}} -output_supply_port {{out VDD_{k}}} \\\n  \
         -control_port {{ctrl sleep_{k}}} -on_state {{on in {{!ctrl}}}} -off_state {{off {{ctrl}}}}\n\
         set_isolation ISO_{k} -domain PD_{k} -applies_to outputs -clamp_value 0 -isolation_signal iso_{k} -isolation_sense high\n"
    );
    if k % 2 == 0 {
        p += &format!("set_retention RET_{k} -domain PD_{k} -elements {{u_block{k}/u_store}}\n");
    }
    p
}

/// A chip of some blocks, each with its domain.
fn chip(blocks: usize) -> Vec<u8> {
    let mut p = String::from("set_design_top top\ncreate_supply_net VDD\ncreate_supply_net VSS\n");
    let mut top = String::from("module=top\nstyle=ansi\nport=in clk\nport=in rst_n\n");
    let mut modules = String::new();
    for k in 0..blocks {
        p += &intent(k);
        top += &format!("decl=data 0 sleep_{k}\ndecl=data 0 iso_{k}\n");
        modules += &block(k);
    }
    for k in 0..blocks {
        top += &format!("inst=0 u_block{k} block{k}\nconn=named clk clk\n");
        for r in 0..6 {
            top += &format!("conn=named result_{r} r{k}_{r}\n");
        }
    }
    job(&[("chip.upf", p)], &(top + &modules))
}

/// Eight instances of one module, and some domains over all of them.
fn domains(n: usize) -> Vec<u8> {
    let mut p = String::from("create_supply_net VDD\ncreate_supply_net VSS\n");
    for k in 0..n {
        p += &supplied(&format!("PD_{k}"), &format!("u{} u{} u{}", k % 8, (k + 1) % 8, (k + 2) % 8), "VDD");
    }
    let mut m = String::from("module=top\nstyle=empty\n");
    (0..8).for_each(|k| m += &format!("inst=0 u{k} leaf\n"));
    m += "module=leaf\nstyle=ansi\nport=in clk\nport=out q\n";
    (0..6).for_each(|k| m += &format!("decl=net 0 w{k}\n"));
    job(&[("p.upf", p)], &m)
}

/// A chain of instances, each module with some names.
fn deep(levels: usize) -> Vec<u8> {
    let p = "create_supply_net V\n".to_string() + &supplied("PD", "u", "V");
    let mut m = String::from("module=top\nstyle=empty\ninst=0 u m0\n");
    for k in 0..levels {
        m += &format!("module=m{k}\nstyle=ansi\nport=in clk\nport=out q\n");
        (0..6).for_each(|n| m += &format!("decl=data 0 d{n}\n"));
        if k + 1 < levels {
            m += &format!("inst=0 u m{}\n", k + 1);
        }
    }
    job(&[("p.upf", p)], &m)
}

/// `n` leaves side by side in two levels.
fn wide(n: usize) -> Vec<u8> {
    let p = "create_supply_net V\n".to_string() + &supplied("PD", "u", "V");
    let mut m = String::from("module=top\nstyle=empty\ninst=0 u a\nmodule=a\nstyle=empty\n");
    (0..n / 16).for_each(|k| m += &format!("inst=0 x{k} b\n"));
    m += "module=b\nstyle=empty\n";
    (0..16).for_each(|k| m += &format!("inst=0 y{k} c\n"));
    job(&[("p.upf", p)], &(m + "module=c\nstyle=ansi\nport=in clk\nport=out q\n"))
}

/// `n` paths out of modules of many names.
fn paths(n: usize) -> Vec<u8> {
    let p = "create_supply_net V\n".to_string() + &supplied("PD", "u", "V");
    let mut m = String::from("module=top\nstyle=empty\ninst=0 u a\nmodule=a\nstyle=ansi\n");
    let (each, times) = if n < 100 { (n, 1) } else { (100, n / 100) };
    (0..times).for_each(|k| m += &format!("inst=0 part{k} c\n"));
    m += "module=c\nstyle=ansi\n";
    (0..each).for_each(|k| m += &format!("decl=net 0 signal_{k}\n"));
    job(&[("p.upf", p)], &m)
}

/// `n` commands of many kinds.
fn commands(n: usize) -> Vec<u8> {
    let mut p =
        "create_supply_net V\n".to_string() + &supplied("PD", "u", "V") + "create_pst T -supplies {V}\n";
    for k in p.lines().count()..n {
        p += &match k % 8 {
            0 => format!("puts {{step {k} of the intent}}\n"),
            1 => format!("create_supply_net N{}\n", k % 30),
            2 => format!("connect_supply_net N{} -ports {{port_{k}}}\n", k % 30),
            3 => format!("add_pst_state s{k} -pst T -state {{on}}\n"),
            4 => "set_domain_supply_net PD -primary_power_net V -primary_ground_net V\n".to_string(),
            5 => "set_isolation ISO -update -domain PD -isolation_signal iso_en -clamp_value 0\n".to_string(),
            6 => format!("query_power_domain PD -detail {k}\n"),
            _ => "set_port_attributes -ports {a b} -receiver_supply SS\n".to_string(),
        };
    }
    // at most 256 warnings
    let p = p.replace("set_port_attributes", if n > 500 { "query_port" } else { "set_port_attributes" });
    job(
        &[("p.upf", p)],
        "module=top\nstyle=empty\ninst=0 u c\nmodule=c\nstyle=ansi\nport=in clk\nport=out q\n",
    )
}

/// A file of ten commands, loaded again and again.
fn loaded(times: usize) -> Vec<u8> {
    let q = "puts \"$W and $W\"\ncreate_supply_net V\nquery_x a -b c {d e}\n".to_string()
        + &"upf_version 2.1\n".repeat(2).replace("upf_version", "query_v");
    let p = "set W w\n".to_string() + &"load_upf q.upf\n".repeat(times);
    job(&[("p.upf", p), ("q.upf", q)], "module=top\nstyle=empty\n")
}

fn family(title: &'static str, grows: &'static str, sizes: &[usize], make: fn(usize) -> Vec<u8>) -> Family {
    let jobs = sizes.iter().map(|&n| (n, (format!("{title}, {n} {grows}"), make(n)))).collect();
    Family { title, grows, jobs }
}

pub fn families() -> Vec<Family> {
    vec![
        family("a chip", "blocks", &[1, 2, 4, 8, 16, 29], chip),
        family("domains over one tree", "domains", &[1, 4, 16, 32], domains),
        family("a deep tree", "levels", &[4, 8, 16, 32], deep),
        family("a wide tree", "leaves", &[64, 256, 1008], wide),
        family("paths of a domain", "paths", &[10, 100, 300, 1000], paths),
        family("commands of many kinds", "commands", &[10, 30, 100, 300, 1000], commands),
        family("a file loaded again", "loads", &[10, 50, 150], loaded),
    ]
}
