//! Writes the Rust's tree as an image: children first, in source order.

use image::Image;

use crate::{
    ArgsDesc, AssertStmt, BinaryOpType, BindSpec, CompSpec, Destruct, Expr, ExprParams,
    FieldMember, FieldName, IStr, IdentityKind, IfElse, ImportKind, IndexPart, MemberKind, ObjBody,
    Slice, Span, Spanned, TrivialVal, UnaryOpType, Visibility,
};

pub fn image(tree: &Expr) -> Vec<u8> {
    let mut walk = Walk(Image::default());
    walk.expr(tree);
    walk.0.into_bytes()
}

fn range(span: &Span) -> (u32, u32) {
    (span.1, span.2)
}

/// The span of something that may be absent.
fn range_or_none(part: Option<&Spanned<Expr>>) -> (u32, u32) {
    part.map_or((0, 0), |part| range(&part.span))
}

struct Walk(Image);

impl Walk {
    fn expr(&mut self, expr: &Expr) {
        match expr {
            Expr::Identity(span, kind) => {
                let which = match kind {
                    IdentityKind::This => 0,
                    IdentityKind::Super => 1,
                    IdentityKind::Dollar => 2,
                };
                self.0.record(1).byte(which).span(range(span)).end();
            }
            Expr::Trivial(value) => self.trivial(value),
            Expr::Var(name) => self.0.record(6).span(range(&name.span)).text(name).end(),
            Expr::Arr(elements) => {
                elements.iter().for_each(|element| self.expr(element));
                self.0.record(7).number(elements.len()).end();
            }
            Expr::ArrComp(element, clauses) => {
                self.expr(element);
                self.clauses(clauses);
                self.0.record(8).number(clauses.len()).end();
            }
            Expr::Obj(body) => self.body(body),
            Expr::ObjExtend(base, body) => {
                self.expr(base);
                self.body(body);
                self.0.record(11).end();
            }
            Expr::UnaryOp(op, operand) => {
                self.expr(operand);
                self.0.record(12).byte(prefix_byte(*op)).end();
            }
            Expr::BinaryOp(binary) => {
                self.expr(&binary.lhs);
                self.expr(&binary.rhs);
                let record = self.0.record(13).byte(infix_byte(binary.op));
                record.span(range(&binary.span)).end();
            }
            Expr::AssertExpr(assert) => {
                self.assert(&assert.assert);
                self.expr(&assert.rest);
                self.0.record(14).end();
            }
            Expr::LocalExpr(binds, body) => {
                binds.iter().for_each(|bind| self.bind(bind));
                self.expr(body);
                self.0.record(15).number(binds.len()).end();
            }
            Expr::Import(kind, path) => {
                let byte = match kind.value {
                    ImportKind::Normal => 0,
                    ImportKind::Str => 1,
                    ImportKind::Bin => 2,
                };
                self.expr(path);
                self.0.record(16).byte(byte).span(range(&kind.span)).end();
            }
            Expr::ErrorStmt(span, message) => {
                self.expr(message);
                self.0.record(17).span(range(span)).end();
            }
            Expr::Apply(callee, args, tailstrict) => {
                self.expr(callee);
                self.call(args, *tailstrict);
            }
            Expr::Index { indexable, parts } => {
                self.expr(indexable);
                for (at, part) in parts.iter().enumerate() {
                    self.index_part(part, at == 0);
                }
            }
            Expr::Function(span, params, body) => {
                self.params(params);
                self.expr(body);
                self.0.record(21).span(range(span)).number(params.len()).end();
            }
            Expr::IfElse(if_else) => self.if_else(if_else),
            Expr::Slice(slice) => self.slice(slice),
        }
    }

    fn trivial(&mut self, value: &TrivialVal) {
        match value {
            TrivialVal::Null => self.0.record(2).end(),
            TrivialVal::Bool(value) => self.0.record(3).flag(*value).end(),
            TrivialVal::Num(literal) => self.0.record(4).text(literal).end(),
            TrivialVal::Str(text) => self.0.record(5).text(text).end(),
        }
    }

    fn call(&mut self, args: &Spanned<ArgsDesc>, tailstrict: bool) {
        args.unnamed.iter().for_each(|value| self.expr(value));
        for (name, value) in args.names.iter().zip(&args.values) {
            self.expr(value);
            self.0.record(19).text(name).end();
        }
        let record = self.0.record(18).span(range(&args.span)).flag(tailstrict);
        record.number(args.unnamed.len()).number(args.names.len()).end();
    }

    fn index_part(&mut self, part: &IndexPart, first: bool) {
        #[cfg(feature = "exp-null-coaelse")]
        let null_safe = part.null_coaelse;
        #[cfg(not(feature = "exp-null-coaelse"))]
        let null_safe = false;
        self.expr(&part.value);
        self.0.record(20).span(range(&part.span)).flag(first).flag(null_safe).end();
    }

    fn if_else(&mut self, if_else: &IfElse) {
        self.expr(&if_else.cond.cond);
        self.expr(&if_else.cond_then);
        if let Some(otherwise) = &if_else.cond_else {
            self.expr(otherwise);
        }
        let record = self.0.record(22).span(range(&if_else.cond.span));
        record.flag(if_else.cond_else.is_some()).end();
    }

    fn slice(&mut self, slice: &Slice) {
        self.expr(&slice.value);
        let parts = [&slice.slice.start, &slice.slice.end, &slice.slice.step];
        let mut present = 0;
        for (part, bit) in parts.iter().zip([1, 2, 4]) {
            if let Some(part) = part {
                self.expr(part);
                present |= bit;
            }
        }
        let [start, end, step] = parts.map(|part| range_or_none(part.as_ref()));
        self.0.record(23).byte(present).span(start).span(end).span(step).end();
    }

    fn body(&mut self, body: &ObjBody) {
        match body {
            ObjBody::MemberList(list) => {
                self.members(&list.order, &list.locals, &list.asserts, &list.fields);
                self.0.record(9).number(list.order.len()).end();
            }
            ObjBody::ObjComp(comp) => {
                self.members(&comp.order, &comp.locals, &[], std::slice::from_ref(&*comp.field));
                self.clauses(&comp.compspecs);
                self.0.record(10).number(comp.order.len()).number(comp.compspecs.len()).end();
            }
        }
    }

    /// The Rust keeps three lists; `order` says which of them each member stands in.
    fn members(
        &mut self,
        order: &[MemberKind],
        locals: &[BindSpec],
        asserts: &[AssertStmt],
        fields: &[FieldMember],
    ) {
        let (mut locals, mut asserts, mut fields) = (locals.iter(), asserts.iter(), fields.iter());
        for kind in order {
            match kind {
                MemberKind::Local => self.bind(locals.next().expect("listed as a local")),
                MemberKind::Assert => self.assert(asserts.next().expect("listed as an assert")),
                MemberKind::Field => self.field(fields.next().expect("listed as a field")),
            }
        }
        assert!(locals.next().is_none() && asserts.next().is_none() && fields.next().is_none());
    }

    fn field(&mut self, field: &FieldMember) {
        let computed = match &field.name.value {
            FieldName::Fixed(name) => {
                self.0.record(5).text(name).end();
                false
            }
            FieldName::Dyn(name) => {
                self.expr(name);
                true
            }
        };
        if let Some(params) = &field.params {
            self.params(params);
        }
        self.expr(&field.value);
        let record = self.0.record(31).span(range(&field.name.span));
        let record = record.flag(computed).flag(field.plus).flag(field.params.is_some());
        let record = record.number(field.params.as_ref().map_or(0, ExprParams::len));
        record.byte(visibility_byte(field.visibility)).end();
    }

    fn assert(&mut self, assert: &AssertStmt) {
        self.expr(&assert.assertion);
        if let Some(message) = &assert.message {
            self.expr(message);
        }
        let record = self.0.record(32).span(range(&assert.assertion.span));
        record.flag(assert.message.is_some()).end();
    }

    fn bind(&mut self, bind: &BindSpec) {
        match bind {
            BindSpec::Field { into, value } => {
                self.pattern(into);
                self.expr(value);
                self.0.record(24).flag(false).number(0).end();
            }
            BindSpec::Function { name, params, value } => {
                self.name(name);
                self.params(params);
                self.expr(value);
                self.0.record(24).flag(true).number(params.len()).end();
            }
        }
    }

    fn params(&mut self, params: &ExprParams) {
        for param in &params.exprs {
            self.pattern(&param.destruct);
            if let Some(default) = &param.default {
                self.expr(default);
            }
            self.0.record(30).flag(param.default.is_some()).end();
        }
    }

    fn clauses(&mut self, clauses: &[CompSpec]) {
        for clause in clauses {
            match clause {
                CompSpec::IfSpec(clause) => {
                    self.expr(&clause.cond);
                    self.0.record(34).span(range(&clause.span)).end();
                }
                CompSpec::ForSpec(clause) => {
                    self.pattern(&clause.destruct);
                    self.expr(&clause.over);
                    self.0.record(33).end();
                }
                #[cfg(feature = "exp-object-iteration")]
                CompSpec::ForObjSpec(clause) => {
                    self.pattern(&clause.value);
                    self.expr(&clause.over);
                    let record = self.0.record(35).byte(visibility_byte(clause.visibility));
                    record.text(&clause.key).end();
                }
            }
        }
    }

    fn name(&mut self, name: &Spanned<IStr>) {
        self.0.record(25).span(range(&name.span)).text(name).end();
    }

    fn pattern(&mut self, pattern: &Destruct) {
        match pattern {
            Destruct::Full(name) => self.name(name),
            #[cfg(feature = "exp-destruct")]
            Destruct::Skip => self.0.record(26).end(),
            #[cfg(feature = "exp-destruct")]
            Destruct::Array { start, rest, end } => {
                start.iter().chain(end).for_each(|part| self.pattern(part));
                let (byte, name) = rest_fields(rest);
                let record = self.0.record(27).number(start.len()).byte(byte);
                record.number(end.len()).text(name).end();
            }
            #[cfg(feature = "exp-destruct")]
            Destruct::Object { fields, rest } => {
                for (name, into, default) in fields {
                    self.pattern_field(name, into.as_ref(), default.as_ref());
                }
                let (byte, name) = rest_fields(rest);
                self.0.record(28).number(fields.len()).byte(byte).text(name).end();
            }
        }
    }

    #[cfg(feature = "exp-destruct")]
    fn pattern_field(
        &mut self,
        name: &IStr,
        into: Option<&Destruct>,
        default: Option<&Spanned<Expr>>,
    ) {
        if let Some(into) = into {
            self.pattern(into);
        }
        if let Some(default) = default {
            self.expr(default);
        }
        let record = self.0.record(29).flag(into.is_some()).flag(default.is_some());
        record.span(range_or_none(default)).text(name).end();
    }
}

/// Rest byte and rest name of a pattern.
#[cfg(feature = "exp-destruct")]
fn rest_fields(rest: &Option<crate::DestructRest>) -> (u8, &str) {
    match rest {
        None => (0, ""),
        Some(crate::DestructRest::Drop) => (1, ""),
        Some(crate::DestructRest::Keep(name)) => (2, name),
    }
}

fn visibility_byte(visibility: Visibility) -> u8 {
    match visibility {
        Visibility::Normal => 0,
        Visibility::Hidden => 1,
        Visibility::Unhide => 2,
    }
}

fn prefix_byte(op: UnaryOpType) -> u8 {
    match op {
        UnaryOpType::Plus => 0,
        UnaryOpType::Minus => 1,
        UnaryOpType::BitNot => 2,
        UnaryOpType::Not => 3,
    }
}

fn infix_byte(op: BinaryOpType) -> u8 {
    match op {
        BinaryOpType::Mul => 0,
        BinaryOpType::Div => 1,
        BinaryOpType::Mod => 2,
        BinaryOpType::Add => 3,
        BinaryOpType::Sub => 4,
        BinaryOpType::Lhs => 5,
        BinaryOpType::Rhs => 6,
        BinaryOpType::Lt => 7,
        BinaryOpType::Gt => 8,
        BinaryOpType::Lte => 9,
        BinaryOpType::Gte => 10,
        BinaryOpType::BitAnd => 11,
        BinaryOpType::BitOr => 12,
        BinaryOpType::BitXor => 13,
        BinaryOpType::Eq => 14,
        BinaryOpType::Neq => 15,
        BinaryOpType::And => 16,
        BinaryOpType::Or => 17,
        #[cfg(feature = "exp-null-coaelse")]
        BinaryOpType::NullCoaelse => 18,
        BinaryOpType::In => 19,
    }
}
