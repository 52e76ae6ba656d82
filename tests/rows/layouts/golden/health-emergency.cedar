// In an emergency the record is open, and the opening is kept.
@id("break-glass")
@audit("always")
permit (principal is Clinician, action == Action::"readRecord", resource is Record)
when { // both are asked for
  context.purpose == "emergency" && // said by the clinician
  context.reason like "?*" // and why
};
