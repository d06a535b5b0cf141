class ChA implements ChI, ChK { }
