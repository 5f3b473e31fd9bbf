//! Stand-ins for the syntax tree: the parts that the reference looks at.

pub use self::decl::Identifier;

pub enum Description {
    Module(module::ModuleDeclaration),
    Package(Package),
    Other,
}

pub struct Package {
    pub name: Identifier,
}

pub mod decl {
    use ast::expr::Expression;
    use ast::types::{DataType, PortDirection};

    #[derive(Clone)]
    pub struct Identifier {
        pub name: String,
    }

    /// One unpacked dimension; only their number matters.
    pub struct Dimension;

    pub struct Declarator {
        pub name: Identifier,
        pub dimensions: Vec<Dimension>,
    }

    pub struct Declaration {
        pub data_type: DataType,
        pub declarators: Vec<Declarator>,
    }

    pub struct PortDeclaration {
        pub direction: PortDirection,
        pub declarators: Vec<Declarator>,
    }

    pub struct HierarchicalInstance {
        pub name: Identifier,
        pub dimensions: Vec<Dimension>,
        pub connections: Vec<PortConnection>,
    }

    pub struct ModuleInstantiation {
        pub module_name: Identifier,
        pub instances: Vec<HierarchicalInstance>,
    }

    pub struct GenerateRegion {
        pub items: Vec<ModuleItem>,
    }

    pub enum ModuleItem {
        NetDeclaration(Declaration),
        DataDeclaration(Declaration),
        PortDeclaration(PortDeclaration),
        ModuleInstantiation(ModuleInstantiation),
        GenerateRegion(GenerateRegion),
        Other,
    }

    pub enum PortConnection {
        Wildcard,
        Named { name: Identifier, expr: Option<Expression>, implicit: bool },
        Ordered(Option<Expression>),
    }
}

pub mod expr {
    use ast::decl::Identifier;

    pub struct Select;

    pub struct Segment {
        pub name: Identifier,
        pub selects: Vec<Select>,
    }

    pub struct HierarchicalIdentifier {
        pub root: Option<Identifier>,
        pub path: Vec<Segment>,
    }

    pub enum ExprKind {
        Ident(HierarchicalIdentifier),
        Other,
    }

    pub struct Expression {
        pub kind: ExprKind,
    }
}

pub mod module {
    use ast::decl::{Identifier, ModuleItem};
    use ast::types::PortDirection;

    pub struct AnsiPort {
        pub name: Identifier,
        pub direction: Option<PortDirection>,
    }

    pub enum PortList {
        Ansi(Vec<AnsiPort>),
        NonAnsi(Vec<Identifier>),
        Empty,
    }

    pub struct ModuleDeclaration {
        pub name: Identifier,
        pub ports: PortList,
        pub items: Vec<ModuleItem>,
    }
}

pub mod types {
    #[derive(Clone, Copy, PartialEq, Eq)]
    pub enum PortDirection {
        Input,
        Output,
        Inout,
        Ref,
    }

    pub enum SimpleType {
        String,
        Event,
        Chandle,
    }

    pub enum DataType {
        Integral,
        Real {},
        Simple { kind: SimpleType },
    }
}
