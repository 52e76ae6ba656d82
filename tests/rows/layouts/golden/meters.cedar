// A reading is newer than the last one, and no smaller.
permit(principal is Meter, action == Action::"report", resource is Site)
when
{
  context.reading has value && context.reading.value >= -0040 &&
  context.reading == {at: context.now, value: context.reading.value, unit: "kWh",}
};
