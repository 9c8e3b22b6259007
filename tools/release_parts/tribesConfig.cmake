# tribes::tribes is the archive, tribes::shared the shared library where the package has one.
get_filename_component(tribes_prefix "${CMAKE_CURRENT_LIST_DIR}/../../.." ABSOLUTE)

if(NOT TARGET tribes::tribes)
  add_library(tribes::tribes STATIC IMPORTED)
  set_target_properties(tribes::tribes PROPERTIES
    IMPORTED_LOCATION "${tribes_prefix}/lib/libtribes.a"
    INTERFACE_INCLUDE_DIRECTORIES "${tribes_prefix}/include")
endif()

if(EXISTS "${tribes_prefix}/lib/libtribes.so.1" AND NOT TARGET tribes::shared)
  add_library(tribes::shared SHARED IMPORTED)
  set_target_properties(tribes::shared PROPERTIES
    IMPORTED_LOCATION "${tribes_prefix}/lib/libtribes.so.1"
    IMPORTED_SONAME "libtribes.so.1"
    INTERFACE_INCLUDE_DIRECTORIES "${tribes_prefix}/include")
endif()
