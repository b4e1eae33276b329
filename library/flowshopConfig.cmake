# For find_package(flowshop): the library as an imported target, flowshop::flowshop for the shared object and
# flowshop::static for the archive. It stands below lib/cmake/flowshop/ of the folder that ./install wrote to, which may
# be moved. The targets are its components too, of which a project always has both.
get_filename_component(_flowshop_prefix "${CMAKE_CURRENT_LIST_DIR}/../../.." ABSOLUTE)
foreach(_flowshop_form IN ITEMS flowshop static)
  if(TARGET flowshop::${_flowshop_form})
    continue()
  endif()
  if(_flowshop_form STREQUAL "static")
    add_library(flowshop::static STATIC IMPORTED)
    set(_flowshop_file libflowshop.a)
  else()
    add_library(flowshop::flowshop SHARED IMPORTED)
    set(_flowshop_file libflowshop.so.${flowshop_VERSION_MAJOR})
    set_target_properties(flowshop::flowshop PROPERTIES IMPORTED_SONAME "${_flowshop_file}")
  endif()
  set_target_properties(flowshop::${_flowshop_form} PROPERTIES
    IMPORTED_LINK_INTERFACE_LANGUAGES C
    IMPORTED_LOCATION "${_flowshop_prefix}/lib/${_flowshop_file}"
    INTERFACE_INCLUDE_DIRECTORIES "${_flowshop_prefix}/include")
  if(NOT EXISTS "${_flowshop_prefix}/lib/${_flowshop_file}")
    set(flowshop_FOUND FALSE)
    set(flowshop_NOT_FOUND_MESSAGE "there is no ${_flowshop_prefix}/lib/${_flowshop_file}")
  endif()
endforeach()
foreach(_flowshop_form IN LISTS flowshop_FIND_COMPONENTS)
  if(flowshop_FIND_REQUIRED_${_flowshop_form} AND NOT TARGET flowshop::${_flowshop_form})
    set(flowshop_FOUND FALSE)
    set(flowshop_NOT_FOUND_MESSAGE "it has no component ${_flowshop_form}")
  endif()
endforeach()
unset(_flowshop_prefix)
unset(_flowshop_form)
unset(_flowshop_file)
