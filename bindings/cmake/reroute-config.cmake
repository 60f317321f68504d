# What find_package(reroute) gives: the targets reroute::reroute, and reroute::static for libreroute.a.
if(NOT TARGET reroute::reroute)
  get_filename_component(_reroute_lib "${CMAKE_CURRENT_LIST_DIR}/../.." ABSOLUTE)
  set(_reroute_include "${_reroute_lib}/../include")
  if(NOT EXISTS "${_reroute_include}/reroute.h") # (where libraries have a folder for each architecture)
    set(_reroute_include "${_reroute_lib}/../../include")
  endif()
  get_filename_component(_reroute_include "${_reroute_include}" ABSOLUTE)
  add_library(reroute::reroute SHARED IMPORTED)
  set_target_properties(reroute::reroute PROPERTIES IMPORTED_LOCATION "${_reroute_lib}/libreroute.so.0"
    IMPORTED_SONAME libreroute.so.0 INTERFACE_INCLUDE_DIRECTORIES "${_reroute_include}")
  add_library(reroute::static STATIC IMPORTED)
  set_target_properties(reroute::static PROPERTIES IMPORTED_LOCATION "${_reroute_lib}/libreroute.a"
    INTERFACE_INCLUDE_DIRECTORIES "${_reroute_include}")
endif()
