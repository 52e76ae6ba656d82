// From left to right a change has to pass each stage.
@id("stages")
permit(principal in Team::"release",action==Action::"promote",resource is Build)
when{["test","stage","live"].contains(context.to)&&(context.to!="live"||resource.passed.containsAll(["test","stage"]))};
