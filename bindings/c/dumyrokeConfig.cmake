# find_package(dumyroke) gives the targets dumyroke::dumyroke, the shared library, and dumyroke::static, the static one. Both know the folder of the headers.
get_filename_component(_dumyroke_library "${CMAKE_CURRENT_LIST_DIR}/../.." ABSOLUTE)
get_filename_component(_dumyroke_include "${_dumyroke_library}/@INCLUDE@" ABSOLUTE)

if(NOT TARGET dumyroke::dumyroke)
  add_library(dumyroke::dumyroke SHARED IMPORTED)
  set_target_properties(dumyroke::dumyroke PROPERTIES
    IMPORTED_LOCATION "${_dumyroke_library}/libdumyroke.so.@VERSION@"
    IMPORTED_SONAME "@SONAME@"
    INTERFACE_INCLUDE_DIRECTORIES "${_dumyroke_include}")
endif()

if(NOT TARGET dumyroke::static)
  add_library(dumyroke::static STATIC IMPORTED)
  set_target_properties(dumyroke::static PROPERTIES
    IMPORTED_LOCATION "${_dumyroke_library}/libdumyroke.a"
    INTERFACE_INCLUDE_DIRECTORIES "${_dumyroke_include}")
endif()

unset(_dumyroke_library)
unset(_dumyroke_include)
