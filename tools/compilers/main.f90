! A table, variables, calls to another object.
module program_data
    use iso_c_binding
    implicit none
    integer(c_int), parameter :: rows(4) = [3, 4, 5, 6]
    integer(c_int) :: total = 32
    integer(c_int), bind(c, name="shared") :: from_start
    interface
        function twice(x) bind(c)
            import c_int
            integer(c_int), value :: x
            integer(c_int) :: twice
        end function
    end interface
contains
    function answer() bind(c)
        integer(c_int) :: answer
        integer :: k
        do k = 1, 4
            total = total + rows(k)
        end do
        answer = twice(total) - from_start - 32
    end function
end module
