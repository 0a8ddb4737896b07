# The target vozhkell::vozhkell: the header and the static library that stand in the folders above this file.
include(CMakeFindDependencyMacro)
find_dependency(Threads)
if(NOT TARGET vozhkell::vozhkell)
  get_filename_component(_vozhkell "${CMAKE_CURRENT_LIST_DIR}/../../.." ABSOLUTE)
  add_library(vozhkell::vozhkell STATIC IMPORTED)
  set_target_properties(vozhkell::vozhkell PROPERTIES
    IMPORTED_LOCATION "${_vozhkell}/lib/libvozhkell.a"
    INTERFACE_INCLUDE_DIRECTORIES "${_vozhkell}/include"
    INTERFACE_LINK_LIBRARIES Threads::Threads)
  unset(_vozhkell)
endif()
