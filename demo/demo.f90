! A probe located in a hexahedron, from Fortran. Corners stand node by node, x y z: in Fortran's order that is corners(3, 8).
module isnemgul
  use, intrinsic :: iso_c_binding, only: c_double, c_int32_t, c_size_t
  implicit none
  interface
    function isn_hex_locate_checked(corners, tolerance, at) result(answer) bind(c)
      import :: c_double, c_int32_t
      real(c_double), intent(in) :: corners(3, 8)
      real(c_double), value :: tolerance
      real(c_double), intent(inout) :: at(3)
      integer(c_int32_t) :: answer
    end function
    function isn_refine(n, cells, cells_len, out, out_len, next) result(answer) bind(c)
      import :: c_int32_t, c_size_t
      integer(c_int32_t), value :: n
      integer(c_int32_t), intent(in) :: cells(*)
      integer(c_size_t), value :: cells_len
      integer(c_int32_t), intent(inout) :: out(*)
      integer(c_size_t), value :: out_len
      integer(c_int32_t), intent(inout) :: next
      integer(c_int32_t) :: answer
    end function
  end interface
end module

program demo
  use isnemgul
  implicit none
  real(c_double), parameter :: block(3, 8) = reshape([real(c_double) :: &
      0, 0, 0, 4, 0, 0, 5, 3, 0, 0, 3, 1, 0, 0, 6, 4, 1, 6, 5, 4, 7, 0, 3, 6], [3, 8])
  call locate([1.5_c_double, 1.25_c_double, 2.0_c_double])
  call locate([5.0_c_double, 1.5_c_double, 3.0_c_double])
  call refine()
contains
  subroutine locate(probe)
    real(c_double), intent(in) :: probe(3)
    real(c_double) :: at(3)
    integer(c_int32_t) :: answer
    answer = isn_hex_locate_checked(block - spread(probe, 2, 8), 1e-9_c_double, at)
    if (answer == 0) then
      print '(a, 3f8.4, a, 3f12.8)', 'probe at', probe, ': inside at', at
    else
      print '(a, 3f8.4, a, i0)', 'probe at', probe, ': refused ', answer
    end if
  end subroutine

  ! Node numbers count from 0, as in the mesh file.
  subroutine refine()
    integer(c_int32_t) :: children(8, 8), next, answer
    answer = isn_refine(8_c_int32_t, [integer(c_int32_t) :: 0, 1, 2, 3, 4, 5, 6, 7], 8_c_size_t, children, 64_c_size_t, next)
    if (answer == 0) then
      print '(a, i0, a, 8(1x, i0))', 'nodes ', next, ', the last child names', children(:, 8)
    else
      print '(a, i0)', 'refused ', answer
    end if
  end subroutine
end program
