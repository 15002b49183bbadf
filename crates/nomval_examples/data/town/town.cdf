<?xml version="1.0" encoding="UTF-8"?>
<combinedDecisions>
  <decisionGroup id="north">
    <decision id="compress"><compressorStation id="station_north" value="1" mode="active"/></decision>
    <decision id="pass"><compressorStation id="station_north" value="1" mode="bypass"/></decision>
  </decisionGroup>
  <decisionGroup id="outskirts">
    <decision id="both"><compressorStation id="station_hills" value="1" mode="active"/><compressorStation id="station_west" value="1" mode="active"/></decision>
    <decision id="west"><compressorStation id="station_hills" value="1" mode="bypass"/><compressorStation id="station_west" value="1" mode="active"/></decision>
  </decisionGroup>
  <decisionGroup id="town">
    <decision id="supplied"><controlValve id="control_old_town" value="1" mode="active"/><valve id="valve_east" value="1"/></decision>
    <decision id="east_shut"><controlValve id="control_old_town" value="1" mode="active"/><valve id="valve_east" value="0"/></decision>
  </decisionGroup>
</combinedDecisions>
