// A row of a table whose number is known only when the program runs: what ends it on a wrong number is of core.
#![no_std]
extern "C" {
    fn twice(x: i32) -> i32;
    static shared: i32;
}

static TABLE: [i32; 4] = [3, 40, 5, 6];

#[panic_handler]
fn panic(_: &core::panic::PanicInfo) -> ! {
    loop {}
}

#[no_mangle]
pub extern "C" fn answer() -> i32 {
    unsafe { TABLE[1 + twice(shared - 26) as usize] + twice(1) }
}
