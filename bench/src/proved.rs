//! The proved reader, called through its exported functions.

/// What a job comes to: the number of its refusal, or 0, and how many bytes were printed.
#[repr(C)]
struct Drawn {
    printed: usize,
    refusal: u8,
}

unsafe extern "C" {
    fn wiefturn_draw_job(
        job: *const u8,
        job_len: usize,
        lengths: *const u8,
        lengths_len: usize,
        out: *mut u8,
        out_len: usize,
    ) -> Drawn;

    fn wiefturn_draw_page(
        side: u16,
        memory: *mut u8,
        memory_len: usize,
        stream: *const u8,
        stream_len: usize,
        piece: usize,
    ) -> u8;
}

/// Draws a job whose stream comes in pieces of these lengths and then the rest, and prints it into a buffer;
/// or tells the number of its refusal.
pub fn draw_job(job: &[u8], lengths: &[u8], out: &mut [u8]) -> Result<usize, u8> {
    // SAFETY: each pointer and length is that of a slice, and the only one that is written through is borrowed mutably.
    let drawn = unsafe {
        wiefturn_draw_job(job.as_ptr(), job.len(), lengths.as_ptr(), lengths.len(), out.as_mut_ptr(), out.len())
    };
    match drawn.refusal {
        0 => Ok(drawn.printed),
        number => Err(number),
    }
}

/// Draws a stream on a bit sheet of a side in lent memory, in pieces of one length (0: whole), and tells the
/// number of its fault, or 0.
pub fn draw_page(side: u16, memory: &mut [u8], stream: &[u8], piece: usize) -> u8 {
    // SAFETY: as above.
    unsafe {
        wiefturn_draw_page(side, memory.as_mut_ptr(), memory.len(), stream.as_ptr(), stream.len(), piece)
    }
}
