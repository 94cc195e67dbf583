// A table, functions behind a trait, variables, calls to another object.
#![no_std]
extern "C" {
    fn twice(x: i32) -> i32;
    static shared: i32;
}

trait Shape {
    fn size(&self) -> i32;
}
struct Small;
struct Large(i32);
impl Shape for Small {
    fn size(&self) -> i32 {
        1
    }
}
impl Shape for Large {
    fn size(&self) -> i32 {
        self.0
    }
}

static TABLE: [i32; 4] = [3, 4, 5, 6];
static mut SUM: i32 = 0;

#[panic_handler]
fn panic(_: &core::panic::PanicInfo) -> ! {
    loop {}
}

#[no_mangle]
pub extern "C" fn answer() -> i32 {
    let shapes: [&dyn Shape; 2] = [&Small, &Large(15)];
    unsafe {
        for k in 0..4 {
            SUM += TABLE[k] + shapes[k & 1].size();
        }
        twice(SUM) - shared - 32
    }
}
