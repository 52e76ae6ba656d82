// Ümläute and 漢字 may be in comments and strings, and nowhere else.
@note("für alle")
permit(principal == User::"Ω", action == Action::"öffnen", resource)
when { resource.title like "*日本*" && context.mood != "\u{1F600}" };
