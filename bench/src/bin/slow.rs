//! The slow judge as a program: STD text on standard input, the answer on standard output, in the
//! same form as the proved program, so that the two outputs can be compared.

use racejudge_bench::program::{input, print};
use racejudge_bench::text::{answer, DECISIVE_BYTES};
use racejudge_bench::words;

fn main() {
    words::slow(words::given());
    print(&answer(&input(DECISIVE_BYTES)));
}
