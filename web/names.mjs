// The names of events, in the order of their numbers in markdown.h.
export const EVENT_NAMES = `
    AttentionSequence Autolink AutolinkEmail AutolinkMarker AutolinkProtocol BlankLineEnding BlockQuote
    BlockQuoteMarker BlockQuotePrefix ByteOrderMark CharacterEscape CharacterEscapeMarker CharacterEscapeValue
    CharacterReference CharacterReferenceMarker CharacterReferenceMarkerHexadecimal CharacterReferenceMarkerNumeric
    CharacterReferenceMarkerSemi CharacterReferenceValue CodeFenced CodeFencedFence CodeFencedFenceInfo
    CodeFencedFenceMeta CodeFencedFenceSequence CodeFlowChunk CodeIndented CodeText CodeTextData CodeTextSequence
    Content Data Definition DefinitionDestination DefinitionDestinationLiteral DefinitionDestinationLiteralMarker
    DefinitionDestinationRaw DefinitionDestinationString DefinitionLabel DefinitionLabelMarker DefinitionLabelString
    DefinitionMarker DefinitionTitle DefinitionTitleMarker DefinitionTitleString Emphasis EmphasisSequence
    EmphasisText Frontmatter FrontmatterChunk FrontmatterFence FrontmatterSequence GfmAutolinkLiteralEmail
    GfmAutolinkLiteralMailto GfmAutolinkLiteralProtocol GfmAutolinkLiteralWww GfmAutolinkLiteralXmpp GfmFootnoteCall
    GfmFootnoteCallLabel GfmFootnoteCallMarker GfmFootnoteDefinition GfmFootnoteDefinitionLabel
    GfmFootnoteDefinitionLabelMarker GfmFootnoteDefinitionLabelString GfmFootnoteDefinitionMarker
    GfmFootnoteDefinitionPrefix GfmStrikethrough GfmStrikethroughSequence GfmStrikethroughText GfmTable GfmTableBody
    GfmTableCell GfmTableCellDivider GfmTableCellText GfmTableDelimiterCell GfmTableDelimiterCellValue
    GfmTableDelimiterFiller GfmTableDelimiterMarker GfmTableDelimiterRow GfmTableHead GfmTableRow
    GfmTaskListItemCheck GfmTaskListItemMarker GfmTaskListItemValueChecked GfmTaskListItemValueUnchecked
    HardBreakEscape HardBreakTrailing HeadingAtx HeadingAtxSequence HeadingAtxText HeadingSetext HeadingSetextText
    HeadingSetextUnderline HeadingSetextUnderlineSequence HtmlFlow HtmlFlowData HtmlText HtmlTextData Image Label
    LabelEnd LabelImage LabelImageMarker LabelLink LabelMarker LabelText LineEnding Link ListItem ListItemMarker
    ListItemPrefix ListItemValue ListOrdered ListUnordered Mark MarkSequence MarkText MathFlow MathFlowChunk
    MathFlowFence MathFlowFenceMeta MathFlowFenceSequence MathText MathTextData MathTextSequence MdxEsm
    MdxFlowExpression MdxJsxFlowTag MdxJsxTextTag MdxTextExpression Paragraph Reference ReferenceMarker
    ReferenceString Resource ResourceDestination ResourceDestinationLiteral ResourceDestinationLiteralMarker
    ResourceDestinationRaw ResourceDestinationString ResourceMarker ResourceTitle ResourceTitleMarker
    ResourceTitleString SpaceOrTab Strong StrongSequence StrongText ThematicBreak ThematicBreakSequence
`.trim().split(/\s+/);
