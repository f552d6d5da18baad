//! Inputs that tell apart how the papers may be read, each with what has to be answered: the samples
//! of 01, those that READINGS gives, and for some requests of 02 all that stand around an edge.

mod notification;
mod packet;
mod row;
mod section;
mod sending;
mod unit_end;

pub use notification::{notifications, Notification};
pub use packet::{packets, Packet};
pub use row::{rows, Row};
pub use section::{sections, Section};
pub use sending::{sendings, Sending};
