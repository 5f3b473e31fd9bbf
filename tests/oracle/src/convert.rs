//! The modules of a job as the stand-in syntax tree.

use upf_rs::ast::decl::{
    Declaration, Declarator, Dimension, GenerateRegion, HierarchicalInstance, Identifier,
    ModuleInstantiation, ModuleItem, PortConnection, PortDeclaration,
};
use upf_rs::ast::expr::{ExprKind, Expression, HierarchicalIdentifier, Segment, Select};
use upf_rs::ast::module::{AnsiPort, ModuleDeclaration, PortList};
use upf_rs::ast::types::{DataType, PortDirection, SimpleType};

use crate::job::{Conn, Decl, Dir, Inst, Job, Kind, Module, Style};

pub fn tree(job: &Job) -> Vec<ModuleDeclaration> {
    job.modules.iter().map(module).collect()
}

fn ident(name: &str) -> Identifier {
    Identifier { name: name.into() }
}

fn direction(dir: Dir) -> PortDirection {
    match dir {
        Dir::In => PortDirection::Input,
        Dir::Out => PortDirection::Output,
        Dir::Inout => PortDirection::Inout,
        Dir::Ref => PortDirection::Ref,
    }
}

fn dimensions(dims: bool) -> Vec<Dimension> {
    if dims {
        vec![Dimension]
    } else {
        Vec::new()
    }
}

fn module(m: &Module) -> ModuleDeclaration {
    let ports = match m.style {
        Style::Ansi => PortList::Ansi(m.ports.iter().map(ansi).collect()),
        Style::NonAnsi => PortList::NonAnsi(m.ports.iter().map(|p| ident(&p.1)).collect()),
        Style::Empty => PortList::Empty,
    };
    let decls = m.decls.iter().enumerate().map(|(n, d)| declaration(n, d));
    let insts = m.insts.iter().enumerate().map(|(n, i)| instance(n, i));
    ModuleDeclaration { name: ident(&m.name), ports, items: decls.chain(insts).collect() }
}

fn ansi(port: &(Option<Dir>, String)) -> AnsiPort {
    AnsiPort { name: ident(&port.1), direction: port.0.map(direction) }
}

fn declaration(n: usize, d: &Decl) -> ModuleItem {
    let declarators = vec![Declarator { name: ident(&d.name), dimensions: dimensions(d.dims) }];
    let typed = |data_type, declarators| Declaration { data_type, declarators };
    match d.kind {
        Kind::Net => ModuleItem::NetDeclaration(typed(DataType::Integral, declarators)),
        Kind::Data => ModuleItem::DataDeclaration(typed(DataType::Integral, declarators)),
        Kind::Odd => ModuleItem::DataDeclaration(typed(odd(n), declarators)),
        Kind::Port(dir) => {
            ModuleItem::PortDeclaration(PortDeclaration { direction: direction(dir), declarators })
        }
    }
}

/// The four types that `odd` stands for, in turn.
fn odd(n: usize) -> DataType {
    let kind = match n % 4 {
        0 => return DataType::Real {},
        1 => SimpleType::String,
        2 => SimpleType::Event,
        _ => SimpleType::Chandle,
    };
    DataType::Simple { kind }
}

/// Every third instance stands in a generate region: source order is kept.
fn instance(n: usize, i: &Inst) -> ModuleItem {
    let item = ModuleItem::ModuleInstantiation(ModuleInstantiation {
        module_name: ident(&i.module),
        instances: vec![HierarchicalInstance {
            name: ident(&i.name),
            dimensions: dimensions(i.dims),
            connections: i.conns.iter().enumerate().map(|(n, c)| connection(n, c)).collect(),
        }],
    });
    if n % 3 == 2 {
        return ModuleItem::GenerateRegion(GenerateRegion { items: vec![item] });
    }
    item
}

fn connection(n: usize, c: &Conn) -> PortConnection {
    match c {
        Conn::Star => PortConnection::Wildcard,
        Conn::Implicit(port) => PortConnection::Named { name: ident(port), expr: None, implicit: true },
        Conn::Named(port, net) => {
            PortConnection::Named { name: ident(port), expr: actual(n, net), implicit: false }
        }
        Conn::Pos(net) => PortConnection::Ordered(actual(n, net)),
    }
}

/// A plain identifier, or in turn one of the ways of not being one.
fn actual(n: usize, net: &Option<String>) -> Option<Expression> {
    let plain = |name: &str| HierarchicalIdentifier {
        root: None,
        path: vec![Segment { name: ident(name), selects: Vec::new() }],
    };
    let mut id = plain(net.as_deref().unwrap_or("x"));
    if net.is_none() {
        match n % 5 {
            0 => return Some(Expression { kind: ExprKind::Other }),
            1 => return None,
            2 => id.path[0].selects.push(Select),
            3 => id.root = Some(ident("root")),
            _ => id.path.push(Segment { name: ident("y"), selects: Vec::new() }),
        }
    }
    Some(Expression { kind: ExprKind::Ident(id) })
}
