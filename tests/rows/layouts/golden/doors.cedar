// Keys of a floor open its doors; a door may ask for a code as well.
@id("doors")
permit (
  principal is Person,
  action == Action::"open",
  resource is Door in Floor::"3"
)
when { principal.keys.contains(resource.floor) && (!(resource has code) || context.code == resource.code) };
