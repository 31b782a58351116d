//! The functions that access words, of C11 and of the Linux kernel, and why others do not.

use super::tree::{Expression, Node};
use super::{refuse, At, Read};

/// A shared word.
#[derive(Debug, Clone, PartialEq, Eq)]
pub struct Word {
    pub name: String,
    pub start: u8,
    /// The greatest value of its type that matters here.
    pub most: u8,
    pub at: At,
    /// Does its name stand for a pointer to it, as in a litmus test?
    pub is_pointer: bool,
}

#[derive(Debug, Clone, Copy, PartialEq, Eq)]
pub enum Operation {
    Load,
    Store,
    Exchange,
    FetchAdd,
}

/// How an access orders others.
#[derive(Debug, Clone, Copy, PartialEq, Eq)]
pub enum Order {
    Relaxed,
    Acquire,
    Release,
    /// Acquire and release.
    Both,
    /// More than both: the kernel's full barrier.
    Full,
}

/// An access as it is called.
#[derive(Debug, Clone)]
pub struct Call<'e> {
    pub operation: Operation,
    pub order: Order,
    /// Counted from 1.
    pub word: u8,
    pub value: Option<&'e Expression>,
    /// Is it one of the kernel's, whose model is another?
    pub is_kernel: bool,
    pub at: At,
}

/// How a function is called: the word, the value, the order.
struct Function {
    name: &'static str,
    operation: Operation,
    /// None if an argument names it.
    order: Option<Order>,
    is_kernel: bool,
    /// Is the word itself named, and no pointer to it?
    by_object: bool,
}

const fn of_c11(name: &'static str, operation: Operation) -> Function {
    Function { name, operation, order: None, is_kernel: false, by_object: false }
}

const fn of_kernel(name: &'static str, operation: Operation, order: Order) -> Function {
    Function { name, operation, order: Some(order), is_kernel: true, by_object: false }
}

const fn once(name: &'static str, operation: Operation) -> Function {
    Function { by_object: true, ..of_kernel(name, operation, Order::Relaxed) }
}

const FUNCTIONS: [Function; 12] = [
    of_c11("atomic_load_explicit", Operation::Load),
    of_c11("atomic_store_explicit", Operation::Store),
    of_c11("atomic_exchange_explicit", Operation::Exchange),
    of_c11("atomic_fetch_add_explicit", Operation::FetchAdd),
    once("READ_ONCE", Operation::Load),
    once("WRITE_ONCE", Operation::Store),
    of_kernel("smp_load_acquire", Operation::Load, Order::Acquire),
    of_kernel("smp_store_release", Operation::Store, Order::Release),
    of_kernel("xchg", Operation::Exchange, Order::Full),
    of_kernel("xchg_acquire", Operation::Exchange, Order::Acquire),
    of_kernel("xchg_release", Operation::Exchange, Order::Release),
    of_kernel("xchg_relaxed", Operation::Exchange, Order::Relaxed),
];

/// Why functions with these beginnings have no counterpart.
const REASONS: [(&[&str], &str); 6] = [
    (
        &[
            "atomic_compare_exchange",
            "cmpxchg",
            "try_cmpxchg",
            "atomic_cmpxchg",
            "atomic_try_cmpxchg",
        ],
        "compare-exchange has no counterpart: the machine's exchange always writes",
    ),
    (
        &[
            "atomic_thread_fence",
            "atomic_signal_fence",
            "smp_mb",
            "smp_rmb",
            "smp_wmb",
            "smp_read_barrier",
            "barrier",
            "mb",
            "rmb",
            "wmb",
            "__sync_synchronize",
        ],
        "fences have no counterpart",
    ),
    (
        &["spin_", "raw_spin_", "mutex_", "mtx_", "pthread_", "read_lock", "write_lock"],
        "locks have no counterpart",
    ),
    (
        &["rcu_", "srcu_", "synchronize_", "call_rcu"],
        "RCU has no counterpart, and neither have the dependencies that it orders by",
    ),
    (
        &[
            "atomic_fetch_",
            "atomic_flag_",
            "atomic_add",
            "atomic_sub",
            "atomic_inc",
            "atomic_dec",
            "atomic_xchg",
        ],
        "no instruction does this read-modify-write: there are exchange and fetch-add",
    ),
    (
        &["atomic_load", "atomic_store", "atomic_exchange", "atomic_init"],
        "without `_explicit` this access is seq_cst, which has no counterpart",
    ),
];

/// Is this a name that C or the kernel gives to an access or an order, so that nothing else may have it?
pub fn is_reserved(name: &str) -> bool {
    let starts = ["atomic_", "memory_order_", "__atomic_"];
    starts.iter().any(|start| name.starts_with(start))
        || FUNCTIONS.iter().any(|function| function.name == name)
}

/// The access that a call is, or why it is none.
pub fn call<'e>(words: &[Word], name: &str, parts: &'e [Expression], at: At) -> Read<Call<'e>> {
    let Some(function) = FUNCTIONS.iter().find(|function| function.name == name) else {
        return refuse(at, unknown(name));
    };
    let has_value = function.operation != Operation::Load;
    let count = 1 + usize::from(has_value) + usize::from(function.order.is_none());
    if parts.len() != count {
        return refuse(at, format!("`{name}` has {count} arguments, found {}", parts.len()));
    }
    let order = match function.order {
        Some(order) => order,
        None => order_of(function.operation, &parts[count - 1])?,
    };
    let (operation, is_kernel) = (function.operation, function.is_kernel);
    let word = word_of(words, &parts[0], function.by_object)?;
    Ok(Call { operation, order, word, value: has_value.then(|| &parts[1]), is_kernel, at })
}

fn unknown(name: &str) -> String {
    let fits = |starts: &&[&str]| {
        starts.iter().any(|start| match start.len() > 4 || start.ends_with('_') {
            true => name.starts_with(start),
            false => name == *start,
        })
    };
    let plain_add = ["atomic_fetch_add"].contains(&name);
    let seq_cst = REASONS[5].1;
    match REASONS.iter().find(|(starts, _)| fits(starts)) {
        _ if plain_add => format!("`{name}`: {seq_cst}"),
        Some((_, reason)) => format!("`{name}`: {reason}"),
        None => {
            format!("`{name}` is no access that is known here, and other functions are not called")
        }
    }
}

fn order_of(operation: Operation, part: &Expression) -> Read<Order> {
    let Node::Name(name) = &part.is else {
        return refuse(part.at, "the order is wanted by its name, as `memory_order_relaxed`");
    };
    let reads_and_writes = matches!(operation, Operation::Exchange | Operation::FetchAdd);
    let order = match (name.as_str(), operation) {
        ("memory_order_seq_cst", _) => {
            return refuse(part.at, "seq_cst accesses have no counterpart")
        }
        ("memory_order_consume", _) => {
            return refuse(part.at, "consume has no counterpart: it orders by dependencies")
        }
        ("memory_order_relaxed", _) => Order::Relaxed,
        ("memory_order_acquire", _) if operation != Operation::Store => Order::Acquire,
        ("memory_order_release", _) if operation != Operation::Load => Order::Release,
        ("memory_order_acq_rel", _) if reads_and_writes => Order::Both,
        ("memory_order_acquire" | "memory_order_release" | "memory_order_acq_rel", _) => {
            return refuse(part.at, format!("`{name}` is no order of this access in C"))
        }
        _ => return refuse(part.at, format!("`{name}` is no order that is known here")),
    };
    Ok(order)
}

/// The word that an argument names: by a pointer to it, or itself.
fn word_of(words: &[Word], part: &Expression, by_object: bool) -> Read<u8> {
    let (name, is_object, at) = match &part.is {
        Node::Name(name) => (name, None, part.at),
        Node::Prefix(mark @ ("*" | "&"), inner) => match &inner.is {
            Node::Name(name) => (name, Some(*mark == "*"), inner.at),
            _ => return refuse(part.at, "a word is wanted by its name"),
        },
        _ => return refuse(part.at, "a word is wanted by its name"),
    };
    let Some(found) = words.iter().position(|word| word.name == *name) else {
        return refuse(at, format!("`{name}` is no shared word here"));
    };
    let is_pointer = words[found].is_pointer;
    // `x` and `&x` of an object, `*x` and `x` of a pointer.
    let fits = match (is_object, is_pointer) {
        (None, _) => is_pointer != by_object,
        (Some(true), true) => by_object,
        (Some(false), false) => !by_object,
        _ => false,
    };
    match fits {
        true => Ok(found as u8 + 1),
        false if by_object => {
            refuse(part.at, format!("the word itself is wanted here, not a pointer to `{name}`"))
        }
        false => refuse(part.at, format!("a pointer to the word `{name}` is wanted here")),
    }
}
