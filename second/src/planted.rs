//! Machines with one planted error each. Every one of them tells a viewer something hidden, and the pair-run check
//! has to find it; a check that misses one proves nothing about the library.
//!
//! The tag of the last test kept after a loop is not among them: it hides too much, not too little.

use crate::machine::{judge, Policy, Tag, TagRules};
use crate::secrecy::Judge;

/// A machine that goes by the paper but for the rules given.
macro_rules! planted {
    ($name:ident { $($rule:item)* }) => {
        struct $name;
        impl TagRules for $name { $($rule)* }
    };
}

planted!(AssignUnchecked {
    fn assign_needs(_: &Policy, _: Tag) -> Tag {
        0
    }
});
planted!(AssignForgetsBranch {
    fn assign_gives(_: &Policy, _: Tag, value: Tag) -> Tag {
        value
    }
});
planted!(AssignForgetsValue {
    fn assign_gives(_: &Policy, branch: Tag, _: Tag) -> Tag {
        branch
    }
});
planted!(StoreUnchecked {
    fn store_needs(_: &Policy, _: Tag, _: Tag) -> Tag {
        0
    }
});
planted!(StoreIgnoresIndex {
    fn store_needs(_: &Policy, branch: Tag, _: Tag) -> Tag {
        branch
    }
});
planted!(StoreIgnoresBranch {
    fn store_needs(_: &Policy, _: Tag, index: Tag) -> Tag {
        index
    }
});
planted!(StoreForgetsIndex {
    fn store_gives(policy: &Policy, branch: Tag, _: Tag, value: Tag) -> Tag {
        policy.join(branch, value)
    }
});
planted!(StoreForgetsBranch {
    fn store_gives(policy: &Policy, _: Tag, index: Tag, value: Tag) -> Tag {
        policy.join(index, value)
    }
});
planted!(StoreForgetsValue {
    fn store_gives(policy: &Policy, branch: Tag, index: Tag, _: Tag) -> Tag {
        policy.join(branch, index)
    }
});
planted!(EmitUnchecked {
    fn emit_needs(_: &Policy, _: Tag, _: Tag) -> Tag {
        0
    }
});
planted!(EmitValueOnly {
    fn emit_needs(_: &Policy, _: Tag, value: Tag) -> Tag {
        value
    }
});
planted!(EmitBranchOnly {
    fn emit_needs(_: &Policy, branch: Tag, _: Tag) -> Tag {
        branch
    }
});
planted!(IfDoesNotJoin {
    fn if_branch(_: &Policy, branch: Tag, _: Tag) -> Tag {
        branch
    }
});
planted!(IfTestOnly {
    fn if_branch(_: &Policy, _: Tag, test: Tag) -> Tag {
        test
    }
});
planted!(WhileDoesNotJoin {
    fn while_branch(_: &Policy, branch: Tag, _: Tag) -> Tag {
        branch
    }
});
planted!(WhileTestOnly {
    fn while_branch(_: &Policy, _: Tag, test: Tag) -> Tag {
        test
    }
});
planted!(RepeatResets {
    fn repeat_branch(_: &Policy, saved: Tag, _: Tag, _: Tag) -> Tag {
        saved
    }
});
planted!(RepeatResetsToLeast {
    fn repeat_branch(_: &Policy, _: Tag, _: Tag, _: Tag) -> Tag {
        0
    }
});
planted!(RepeatDoesNotJoin {
    fn repeat_branch(_: &Policy, _: Tag, current: Tag, _: Tag) -> Tag {
        current
    }
});
planted!(AfterIfLeast {
    fn after_if(_: Tag) -> Tag {
        0
    }
});
planted!(AfterLoopLeast {
    fn after_loop(_: Tag) -> Tag {
        0
    }
});
planted!(LoadForgetsIndex {
    fn load(_: &Policy, cell: Tag, _: Tag) -> Tag {
        cell
    }
});
planted!(LoadForgetsCell {
    fn load(_: &Policy, _: Tag, index: Tag) -> Tag {
        index
    }
});
planted!(UnaryForgets {
    fn unary(_: Tag) -> Tag {
        0
    }
});
planted!(BinaryLeftOnly {
    fn binary(_: &Policy, left: Tag, _: Tag) -> Tag {
        left
    }
});
planted!(BinaryRightOnly {
    fn binary(_: &Policy, _: Tag, right: Tag) -> Tag {
        right
    }
});

/// What each planted error is, and the machine that makes it.
pub const PLANTED: [(&str, Judge); 26] = [
    ("assign check left out", judge::<AssignUnchecked>),
    (
        "assign forgets the branch tag",
        judge::<AssignForgetsBranch>,
    ),
    (
        "assign forgets the value's tag",
        judge::<AssignForgetsValue>,
    ),
    ("store check left out", judge::<StoreUnchecked>),
    (
        "store check ignores the index's tag",
        judge::<StoreIgnoresIndex>,
    ),
    (
        "store check ignores the branch tag",
        judge::<StoreIgnoresBranch>,
    ),
    ("store forgets the index's tag", judge::<StoreForgetsIndex>),
    ("store forgets the branch tag", judge::<StoreForgetsBranch>),
    ("store forgets the value's tag", judge::<StoreForgetsValue>),
    ("emit check left out", judge::<EmitUnchecked>),
    ("emit looks at the value's tag only", judge::<EmitValueOnly>),
    ("emit looks at the branch tag only", judge::<EmitBranchOnly>),
    ("if does not join the test's tag", judge::<IfDoesNotJoin>),
    ("if takes the test's tag alone", judge::<IfTestOnly>),
    (
        "while does not join the test's tag",
        judge::<WhileDoesNotJoin>,
    ),
    ("while takes the test's tag alone", judge::<WhileTestOnly>),
    (
        "repeated test resets to the saved tag",
        judge::<RepeatResets>,
    ),
    (
        "repeated test resets to tag 0",
        judge::<RepeatResetsToLeast>,
    ),
    (
        "repeated test does not join its tag",
        judge::<RepeatDoesNotJoin>,
    ),
    ("tag 0 after an if", judge::<AfterIfLeast>),
    ("tag 0 after a loop", judge::<AfterLoopLeast>),
    ("cell forgets the index's tag", judge::<LoadForgetsIndex>),
    ("cell forgets its own tag", judge::<LoadForgetsCell>),
    ("unary forgets the tag", judge::<UnaryForgets>),
    ("binary takes the left tag only", judge::<BinaryLeftOnly>),
    ("binary takes the right tag only", judge::<BinaryRightOnly>),
];
