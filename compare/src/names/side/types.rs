// Every name by its type: that of a function with its arguments and its result, that of a constant, those of fields; and what
// each type can do besides. Another name or another type doesn't compile.
use proto::ddm::*;
use proto::dss::*;
use proto::{ProtoError, Result};
use std::error::Error;
use std::fmt::{Debug, Display};

const _: &u8 = &DSS_MAGIC;
const _: &usize = &DSS_HEADER_LEN;
const _: &usize = &DSS_MAX_SEGMENT_LEN;

const _: [DssType; 4] = [
    DssType::Request,
    DssType::Reply,
    DssType::Object,
    DssType::Communication,
];
const _: fn(u8) -> Result<DssType> = DssType::from_byte;
const _: fn(DssType) -> u8 = DssType::to_byte;

const _: fn() -> DssFlags = DssFlags::none;
const _: fn(DssFlags) -> u8 = DssFlags::to_byte;
const _: fn(u8) -> DssFlags = DssFlags::from_byte;
const _: fn(DssFlags) -> [bool; 3] = |flags| {
    let DssFlags {
        chained,
        continue_on_error,
        same_correlation,
    } = flags;
    [chained, continue_on_error, same_correlation]
};

const _: fn(&[u8]) -> Result<DssHeader> = DssHeader::parse;
const _: fn(&DssHeader) -> [u8; DSS_HEADER_LEN] = DssHeader::serialize;
const _: fn(DssHeader) -> (u16, DssType, DssFlags, u16) = |header| {
    let DssHeader {
        length,
        dss_type,
        flags,
        correlation_id,
    } = header;
    (length, dss_type, flags, correlation_id)
};

const _: fn(u16) -> DssWriter = DssWriter::new;
const _: fn(&mut DssWriter) -> Vec<u8> = DssWriter::finish;
const _: fn(&DssWriter) -> &[u8] = DssWriter::data;
const _: fn(&DssWriter) -> u16 = DssWriter::correlation_id;
const _: fn(&mut DssWriter, u16) = DssWriter::set_correlation_id;
const _: fn(&mut DssWriter) -> u16 = DssWriter::next_correlation_id;
const _: fn(&mut DssWriter, DssType, bool, bool, &[u8]) = DssWriter::write_dss_full;
const _: fn(&mut DssWriter, DssType, bool, &[u8]) = DssWriter::write_dss;
const _: [fn(&mut DssWriter, &[u8], bool); 4] = [
    DssWriter::write_request,
    DssWriter::write_object,
    DssWriter::write_object_same_corr,
    DssWriter::write_request_next_same_corr,
];
const _: [fn(u16, bool, &[u8]) -> Vec<u8>; 2] = [build_dss_request, build_dss_object];

const _: fn(DssFrame) -> (DssHeader, Vec<u8>) = |frame| {
    let DssFrame {
        header, payload, ..
    } = frame;
    (header, payload)
};
const _: fn(Vec<u8>) -> DssReader = DssReader::new;
const _: fn(&mut DssReader, &[u8]) = DssReader::extend;
const _: fn(&DssReader) -> usize = DssReader::remaining;
const _: fn(&DssReader) -> bool = DssReader::has_complete_frame;
const _: fn(&[u8]) -> Option<usize> = DssReader::first_complete_frame_len;
const _: fn(&mut DssReader) -> Result<Option<DssFrame>> = DssReader::next_frame;
const _: fn(&mut DssReader) -> Result<Vec<DssFrame>> = DssReader::read_all_frames;
const _: fn(DssReader) -> Vec<u8> = DssReader::into_remaining;

const _: fn(DdmParam) -> (u16, Vec<u8>) = |param| {
    let DdmParam { code_point, data } = param;
    (code_point, data)
};
const _: fn(&DdmParam) -> Option<u16> = DdmParam::as_u16;
const _: fn(&DdmParam) -> Option<u32> = DdmParam::as_u32;
const _: fn(&DdmParam) -> Option<i32> = DdmParam::as_i32;

const _: fn(DdmObject) -> (u16, Vec<u8>) = |object| {
    let DdmObject { code_point, data } = object;
    (code_point, data)
};
const _: fn(&[u8]) -> Result<(DdmObject, usize)> = DdmObject::parse;
const _: fn(&DdmObject) -> Vec<DdmParam> = DdmObject::parameters;
const _: fn(&DdmObject, u16) -> Option<DdmParam> = DdmObject::find_param;
const _: fn(&DdmObject) -> usize = DdmObject::total_length;
const _: fn(&[u8]) -> Result<Vec<DdmObject>> = parse_ddm_objects;

const _: fn(u16) -> DdmBuilder = DdmBuilder::new;
const _: for<'a> fn(&'a mut DdmBuilder, u16, &[u8]) -> &'a mut DdmBuilder =
    DdmBuilder::add_code_point;
const _: fn(&mut DdmBuilder, u16, u16) -> &mut DdmBuilder = DdmBuilder::add_u16;
const _: fn(&mut DdmBuilder, u16, u32) -> &mut DdmBuilder = DdmBuilder::add_u32;
const _: for<'a> fn(&'a mut DdmBuilder, &[u8]) -> &'a mut DdmBuilder = DdmBuilder::add_raw;
const _: fn(&DdmBuilder) -> Vec<u8> = DdmBuilder::build;
const _: [fn(u16, &[u8]) -> Vec<u8>; 2] = [build_param, build_ddm_object];
const _: fn(u16, u16) -> Vec<u8> = build_param_u16;

const fn shown_copied<T: Debug + Clone>() {}
const fn equal<T: Debug + Clone + PartialEq>() {}
const fn wholly_equal<T: Debug + Clone + PartialEq + Eq>() {}
const fn plain<T: Debug + Clone + Copy + PartialEq + Eq>() {}
const fn an_error<T: Error + Display + Debug + Clone + PartialEq + 'static>() {}

const _: () = {
    plain::<DssType>();
    plain::<DssFlags>();
    wholly_equal::<DssHeader>();
    shown_copied::<DssWriter>();
    shown_copied::<DssFrame>();
    shown_copied::<DssReader>();
    equal::<DdmParam>();
    equal::<DdmObject>();
    shown_copied::<DdmBuilder>();
    an_error::<ProtoError>();
};
