# Finds the compiler as a static library: the target Framec::framec, with its header.
#
# An install folder (./prove --install) goes before all else: one that CMAKE_PREFIX_PATH or Framec_ROOT names, or in which CMake looks anyway. Else
# it is a checkout in which the library is built (`rt lib` in crates/framec_c, or tools/unproved.py library): the one that Framec_ROOT names, or the one
# that this file is in. Its library calls malloc, realloc and free through the toolchain's archive libc_c, which stands beside the command rt. With
# Framec_LIBRARY, which names another library, no install folder is looked for.
if(NOT Framec_LIBRARY)
  find_package(Framec ${Framec_FIND_VERSION} CONFIG QUIET)
  if(Framec_FOUND)
    return()
  endif()
endif()

get_filename_component(_framec_top "${CMAKE_CURRENT_LIST_DIR}/../.." ABSOLUTE)
find_program(Framec_RT rt)
get_filename_component(_framec_rt "${Framec_RT}" REALPATH)
get_filename_component(_framec_kit "${_framec_rt}/../.." ABSOLUTE)

find_path(Framec_INCLUDE_DIR framec.h HINTS "${Framec_ROOT}/include" "${_framec_top}/include")
find_library(Framec_LIBRARY framec_c HINTS "${Framec_ROOT}/crates/framec_c/out" "${Framec_ROOT}/out/unproved" "${_framec_top}/crates/framec_c/out" "${_framec_top}/out/unproved")
find_library(Framec_HEAP_LIBRARY libc_c HINTS "${_framec_kit}/c")
if(Framec_INCLUDE_DIR)
  file(STRINGS "${Framec_INCLUDE_DIR}/framec.h" _framec_version REGEX "^#define FRAMEC_VERSION ")
  string(REGEX REPLACE ".*\"(.*)\"" "\\1" Framec_VERSION "${_framec_version}")
endif()

include(FindPackageHandleStandardArgs)
find_package_handle_standard_args(Framec REQUIRED_VARS Framec_LIBRARY Framec_HEAP_LIBRARY Framec_INCLUDE_DIR VERSION_VAR Framec_VERSION)

if(Framec_FOUND AND NOT TARGET Framec::framec)
  add_library(Framec::framec STATIC IMPORTED)
  set_target_properties(Framec::framec PROPERTIES
    IMPORTED_LOCATION "${Framec_LIBRARY}"
    INTERFACE_INCLUDE_DIRECTORIES "${Framec_INCLUDE_DIR}"
    INTERFACE_LINK_LIBRARIES "${Framec_HEAP_LIBRARY}")
endif()
