//! Scripts, without a machine at hand.
use crate::Refusal;
use crate::refusal::accepted;
use vobrekan_sys as sys;

/// What the run of a script wrote.
///
/// ```
/// let ran = vobrekan::run(b"region r containr 4K\n")?;
/// assert_eq!((ran.text, ran.fault), (b"bad script line 1 word\n".to_vec(), Some(1)));
/// # Ok::<(), vobrekan::Refusal>(())
/// ```
#[derive(Clone, Debug, PartialEq, Eq)]
pub struct Ran {
    /// The text of the script; of a text that is no script, one line on its first fault.
    pub text: Vec<u8>,
    /// The line of the first fault, where the text is no script: 0 where it is too long as a whole.
    pub fault: Option<u64>,
}

/// Runs a script on a machine of its own: what it writes is what `mtree run` writes.
///
/// ```
/// let ran = vobrekan::run(b"region r container 4K\nspace s r\nshow s\n")?;
/// assert_eq!((ran.text, ran.fault), (b"view s g1\n".to_vec(), None));
/// # Ok::<(), vobrekan::Refusal>(())
/// ```
pub fn run(script: &[u8]) -> Result<Ran, Refusal> {
    let mut text = vec![0; 1 << 16];
    loop {
        // SAFETY: both slices are borrowed for the call, and each pointer comes with the length of its slice.
        let answer = unsafe { sys::vb_run(script.as_ptr(), script.len(), text.as_mut_ptr(), text.len()) };
        let fault = (answer.code == sys::VB_NO_SCRIPT).then_some(answer.other);
        if fault.is_none() {
            accepted(answer)?;
        }
        let whole = answer.value as usize;
        let is_whole = whole <= text.len();
        text.resize(whole, 0);
        if is_whole {
            return Ok(Ran { text, fault });
        }
    }
}
