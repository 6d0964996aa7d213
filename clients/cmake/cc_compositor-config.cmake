# find_package(cc_compositor) finds libcc where this file was installed, and may be moved with it:
#
#     find_package(cc_compositor REQUIRED)
#     target_link_libraries(shell PRIVATE cc_compositor::shared)    # or cc_compositor::static
#
# This file lies in cmake/cc_compositor of the folder of the libraries; the header is in include/ of the prefix, which
# is one folder up, or two where libraries have a folder for each processor.
get_filename_component(_cc_libraries "${CMAKE_CURRENT_LIST_DIR}/../.." ABSOLUTE)
find_path(cc_compositor_INCLUDE_DIR cc.h
  PATHS "${_cc_libraries}/../include" "${_cc_libraries}/../../include" NO_DEFAULT_PATH)
mark_as_advanced(cc_compositor_INCLUDE_DIR)

foreach(_cc_kind shared static)
  string(TOUPPER ${_cc_kind} _cc_upper)
  if(_cc_kind STREQUAL shared)
    set(_cc_file "${_cc_libraries}/libcc.so")
  else()
    set(_cc_file "${_cc_libraries}/libcc.a")
  endif()
  if(cc_compositor_INCLUDE_DIR AND EXISTS "${_cc_file}" AND NOT TARGET cc_compositor::${_cc_kind})
    add_library(cc_compositor::${_cc_kind} ${_cc_upper} IMPORTED)
    set_target_properties(cc_compositor::${_cc_kind} PROPERTIES
      IMPORTED_LOCATION "${_cc_file}"
      INTERFACE_INCLUDE_DIRECTORIES "${cc_compositor_INCLUDE_DIR}")
  endif()
endforeach()

if(NOT TARGET cc_compositor::shared OR NOT TARGET cc_compositor::static)
  set(cc_compositor_FOUND FALSE)
  set(cc_compositor_NOT_FOUND_MESSAGE "cc.h, libcc.so or libcc.a is not where this file was installed")
endif()
unset(_cc_libraries)
unset(_cc_kind)
unset(_cc_upper)
unset(_cc_file)
