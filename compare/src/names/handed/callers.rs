// Callers of db2-proto as they are written for it.
use db2_proto::codepage::utf8_to_ebcdic037;
use db2_proto::ddm::{parse_ddm_objects, DdmBuilder, DdmObject};
use db2_proto::dss::{DssFrame, DssReader, DssType, DssWriter};
use db2_proto::{ProtoError, Result};

/// Errors go on by `?`, into db2-proto's own `Result`.
fn objects(run: &[u8]) -> Result<Vec<DdmObject>> {
    let mut reader = DssReader::new(run.to_vec());
    let mut all = Vec::new();
    while let Some(DssFrame {
        header, payload, ..
    }) = reader.next_frame()?
    {
        if header.dss_type != DssType::Communication {
            all.extend(parse_ddm_objects(&payload)?);
        }
    }
    Ok(all)
}

/// A match on every case of db2-proto's own error.
pub fn told(run: &[u8]) -> String {
    match objects(run) {
        Ok(all) => format!("{all:?}"),
        Err(ProtoError::InvalidMagic(byte)) => format!("magic {byte}"),
        Err(ProtoError::BufferTooShort { expected, actual }) => format!("{expected} {actual}"),
        Err(ProtoError::InvalidDssType(low)) => format!("type {low}"),
        Err(ProtoError::Other(text)) => text,
        Err(
            error @ (ProtoError::InvalidCodePoint(_)
            | ProtoError::UnexpectedReply { .. }
            | ProtoError::InvalidSqlcard(_)
            | ProtoError::EbcdicConversion(_)
            | ProtoError::Utf8Error(_)),
        ) => error.to_string(),
    }
}

/// An error of the other modules and one of these in the same function.
pub fn found(run: &[u8]) -> Result<Option<String>> {
    for object in objects(run)? {
        if let Some(param) = object.find_param(0x2414) {
            return Ok(Some(String::from_utf8(param.data)?));
        }
    }
    Ok(None)
}

/// What gives no error, with a text by the code page that is db2-proto's own.
pub fn request(id: u16, number: u32, data: &[u8]) -> Vec<u8> {
    let mut builder = DdmBuilder::new(0x200D);
    builder
        .add_u32(0x2105, number)
        .add_code_point(0x2110, &utf8_to_ebcdic037("LATTRUGONE"));
    builder.add_code_point(0x2414, data);
    let mut writer = DssWriter::new(id);
    writer.write_request_next_same_corr(&builder.build(), true);
    writer.write_object_same_corr(data, number % 2 == 0);
    writer.finish()
}
