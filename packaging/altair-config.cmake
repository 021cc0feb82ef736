# find_package(altair @INTERFACE@ REQUIRED); target_link_libraries(mine altair::altair), or altair::static
get_filename_component(_altair_libraries "${CMAKE_CURRENT_LIST_DIR}/../.." ABSOLUTE)
get_filename_component(_altair_headers "${_altair_libraries}/../include" ABSOLUTE)
if(NOT TARGET altair::altair)
  add_library(altair::altair SHARED IMPORTED)
  set_target_properties(altair::altair PROPERTIES
    IMPORTED_LOCATION "${_altair_libraries}/libaltair.so.@VERSION@"
    IMPORTED_SONAME "libaltair.so.@INTERFACE@"
    INTERFACE_INCLUDE_DIRECTORIES "${_altair_headers}")
  add_library(altair::static STATIC IMPORTED)
  set_target_properties(altair::static PROPERTIES
    IMPORTED_LOCATION "${_altair_libraries}/libaltair.a"
    INTERFACE_INCLUDE_DIRECTORIES "${_altair_headers}")
endif()
unset(_altair_libraries)
unset(_altair_headers)
