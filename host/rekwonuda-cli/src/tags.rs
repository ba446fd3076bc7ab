//! The names of columns.

use rekwonuda::Tag;

/// The properties that 003 names as columns of tables (2.4.4.4.1, 2.4.4.5.1, 2.4.4.6.1, 2.4.5.3.1,
/// 2.4.6.1.1 and 2.4.8.6.2.1), and a few that tables often have, without the `PidTag` in front.
const NAMES: [(u16, &str); 65] = [
    (0x0017, "Importance"),
    (0x001A, "MessageClass"),
    (0x0036, "Sensitivity"),
    (0x0037, "Subject"),
    (0x0039, "ClientSubmitTime"),
    (0x0042, "SentRepresentingName"),
    (0x0057, "MessageToMe"),
    (0x0058, "MessageCcMe"),
    (0x0070, "ConversationTopic"),
    (0x0071, "ConversationIndex"),
    (0x0C15, "RecipientType"),
    (0x0C1A, "SenderName"),
    (0x0C1F, "SenderEmailAddress"),
    (0x0E03, "DisplayCc"),
    (0x0E04, "DisplayTo"),
    (0x0E05, "ParentDisplay"),
    (0x0E06, "MessageDeliveryTime"),
    (0x0E07, "MessageFlags"),
    (0x0E08, "MessageSize"),
    (0x0E0F, "Responsibility"),
    (0x0E17, "MessageStatus"),
    (0x0E20, "AttachmentSize"),
    (0x0E2A, "ExchangeRemoteHeader"),
    (0x0E30, "ReplItemid"),
    (0x0E33, "ReplChangenum"),
    (0x0E34, "ReplVersionHistory"),
    (0x0E38, "ReplFlags"),
    (0x0E3C, "ReplCopiedfromVersionhistory"),
    (0x0E3D, "ReplCopiedfromItemid"),
    (0x0FF9, "RecordKey"),
    (0x0FFE, "ObjectType"),
    (0x0FFF, "EntryId"),
    (0x1097, "ItemTemporaryFlags"),
    (0x3001, "DisplayName"),
    (0x3002, "AddressType"),
    (0x3003, "EmailAddress"),
    (0x3007, "CreationTime"),
    (0x3008, "LastModificationTime"),
    (0x300B, "SearchKey"),
    (0x3602, "ContentCount"),
    (0x3603, "ContentUnreadCount"),
    (0x360A, "Subfolders"),
    (0x3613, "ContainerClass"),
    (0x3704, "AttachFilename"),
    (0x3705, "AttachMethod"),
    (0x370B, "RenderingPosition"),
    (0x3900, "DisplayType"),
    (0x39FE, "SmtpAddress"),
    (0x39FF, "7BitDisplayName"),
    (0x3A40, "SendRichInfo"),
    (0x65C6, "SecureSubmitFlags"),
    (0x6635, "PstHiddenCount"),
    (0x6636, "PstHiddenUnread"),
    (0x67F1, "LtpParentNid"),
    (0x67F2, "LtpRowId"),
    (0x67F3, "LtpRowVer"),
    (0x6800, "OfflineAddressBookName"),
    (0x6803, "SendOutlookRecallReport"),
    (0x6805, "OfflineAddressBookTruncatedProperties"),
    (0x682F, "MapiFormComposeCommand"),
    (0x7003, "ViewDescriptorFlags"),
    (0x7004, "ViewDescriptorLinkTo"),
    (0x7005, "ViewDescriptorViewFolder"),
    (0x7006, "ViewDescriptorName"),
    (0x7007, "ViewDescriptorVersion"),
];

/// The name of the property, where it has one.
pub fn name(tag: Tag) -> Option<&'static str> {
    let at = NAMES.binary_search_by_key(&tag.id(), |(id, _)| *id).ok()?;
    Some(NAMES[at].1)
}

/// A heading for each column, unlike all others: the property's name, or the tag where that has none
/// or where two columns are of one property.
pub fn headings(tags: &[Tag]) -> Vec<String> {
    let is_alone = |tag: &Tag| tags.iter().filter(|other| other.id() == tag.id()).count() == 1;
    let heading = |tag: &Tag| match name(*tag) {
        Some(name) if is_alone(tag) => name.to_string(),
        _ => format!("{tag:#010x}"),
    };
    tags.iter().map(heading).collect()
}

#[cfg(test)]
mod tests {
    use super::*;

    #[test]
    fn names_stand_in_the_order_of_their_ids() {
        assert!(NAMES.is_sorted_by(|(id, _), (next, _)| id < next));
        assert_eq!(name(Tag::new(0x0017, 3)), Some("Importance"));
        assert_eq!(name(Tag::new(0x7007, 3)), Some("ViewDescriptorVersion"));
        assert_eq!(name(Tag::new(0x8001, 3)), None);
    }

    #[test]
    fn no_two_columns_have_one_heading() {
        let tags = [0x3001_001E, 0x3001_001F, 0x3602_0003, 0x0001_0003].map(Tag);
        let wanted = ["0x3001001e", "0x3001001f", "ContentCount", "0x00010003"];
        assert_eq!(headings(&tags), wanted);
    }
}
