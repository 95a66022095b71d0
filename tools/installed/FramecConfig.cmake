# The compiler as a static library: the target Framec::framec, with its header. All paths go out from where this file lies.
get_filename_component(_framec_prefix "${CMAKE_CURRENT_LIST_DIR}/../../.." ABSOLUTE)

foreach(_framec_file lib/libframec.a include/framec.h)
  if(NOT EXISTS "${_framec_prefix}/${_framec_file}")
    set(Framec_FOUND FALSE)
    set(Framec_NOT_FOUND_MESSAGE "${_framec_prefix}/${_framec_file} is not there")
    return()
  endif()
endforeach()

if(NOT TARGET Framec::framec)
  add_library(Framec::framec STATIC IMPORTED)
  set_target_properties(Framec::framec PROPERTIES
    IMPORTED_LOCATION "${_framec_prefix}/lib/libframec.a"
    INTERFACE_INCLUDE_DIRECTORIES "${_framec_prefix}/include")
endif()
