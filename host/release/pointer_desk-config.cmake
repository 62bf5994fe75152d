# find_package(pointer_desk) gives the target pointer_desk::pointer_desk.
get_filename_component(_pointer_desk_root "${CMAKE_CURRENT_LIST_DIR}/../../.." ABSOLUTE)
if(NOT TARGET pointer_desk::pointer_desk)
  add_library(pointer_desk::pointer_desk STATIC IMPORTED)
  set_target_properties(pointer_desk::pointer_desk PROPERTIES
    IMPORTED_LOCATION "${_pointer_desk_root}/lib/libpointer_desk.a"
    INTERFACE_INCLUDE_DIRECTORIES "${_pointer_desk_root}/include")
endif()
unset(_pointer_desk_root)
