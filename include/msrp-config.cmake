# find_package(msrp) makes msrp::msrp, the archive, and msrp::shared, the shared library.
get_filename_component(_msrp_prefix "${CMAKE_CURRENT_LIST_DIR}/../../.." ABSOLUTE)
if(NOT TARGET msrp::msrp)
  add_library(msrp::msrp STATIC IMPORTED)
  set_target_properties(msrp::msrp PROPERTIES
    IMPORTED_LOCATION "${_msrp_prefix}/lib/libmsrp.a"
    INTERFACE_INCLUDE_DIRECTORIES "${_msrp_prefix}/include")
  add_library(msrp::shared SHARED IMPORTED)
  set_target_properties(msrp::shared PROPERTIES
    IMPORTED_LOCATION "${_msrp_prefix}/lib/libmsrp.so.1"
    IMPORTED_SONAME libmsrp.so.1
    INTERFACE_INCLUDE_DIRECTORIES "${_msrp_prefix}/include")
endif()
unset(_msrp_prefix)
