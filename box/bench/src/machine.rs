//! Where the benchmark runs, and whether a time taken there means anything.

/// What is measured, for the first line.
pub const MEASURED: &str = if cfg!(target_arch = "x86_64") {
    "fossknut is the static library as built for the box, on x86-64"
} else {
    "fossknut is the static library's LLVM module compiled for this processor, not for x86-64: \
     an indication only"
};

/// Whether the processor is QEMU's own (TCG), whose hypervisor leaf of CPUID says so, also to a
/// single program (qemu-user).
#[cfg(target_arch = "x86_64")]
pub fn is_emulated() -> bool {
    // SAFETY: every x86-64 processor has CPUID. (Newer compilers know that, and call it safe.)
    #[allow(unused_unsafe)]
    let leaf = unsafe { std::arch::x86_64::__cpuid(0x4000_0000) };
    [leaf.ebx, leaf.ecx, leaf.edx] == [*b"TCGT", *b"CGTC", *b"GTCG"].map(u32::from_le_bytes)
}

/// Only x86-64 is ever emulated: for other processors the module is compiled anew.
#[cfg(not(target_arch = "x86_64"))]
pub fn is_emulated() -> bool {
    false
}
