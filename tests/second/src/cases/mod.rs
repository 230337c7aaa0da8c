//! Seeded cases for the tests: sheets, host calls, scripts of calls, rows of calls from C, runs,
//! lines, changes of order, floats, and inputs that meet what a law asks. A case's number is its
//! seed. What is right or wrong about a case is never decided here.

mod banks;
mod calls;
mod damage;
mod doors;
mod drawings;
mod float_script;
mod floats;
mod form;
mod hosts;
mod laws;
mod letters;
mod lines;
mod mend_lines;
mod mends;
mod orders;
mod runs;
mod scene;
mod sheets;
mod sweeps;

pub use calls::{gate_script, gen_calls, gen_edges, gen_orders, gen_split};
pub use calls::{EDGES, RECORDS_A_SCRIPT, SCRIPTS};
pub use doors::{gen_order_row, gen_row, ROWS};
pub use drawings::{drawing_calls, drawing_sheet};
pub use float_script::float_script;
pub use floats::{all_series, border, Series};
pub use form::line_text;
pub use hosts::{gen_host, HostCase, HOST_CALLS};
pub use laws::{gen_as_bytes, gen_exchange, gen_invisible, gen_one_value, gen_opaque};
pub use laws::{Inputs, Pair};
pub use letters::{letter_script, with_lines};
pub use lines::{drawing_lines, gen_faulty_line, gen_lines, FaultyLine, LinesCase, FAULT_SETS};
pub use mend_lines::{border_page, digit_page, gate_lines, gen_page, LINES_A_PAGE, PAGES};
pub use mends::{axis_images, depth_images, gen_mend, MendCase, MENDS};
pub use orders::{arrangement, ORDERS, TURNS};
pub use runs::{end_name, gen_run, item_len, write_bytes, RunCase};
pub use sheets::{gen_sheet, LINES_A_SHEET, SHEETS};
pub use sweeps::{byte_sheet, number_sheet, word_images, word_sheet};
