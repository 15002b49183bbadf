<combinedDecisions><decisionGroup id="group_1">
<decision id="on"><compressorStation id="compressorStation_1" value="1" mode="active"/></decision>
<decision id="off"><compressorStation id="compressorStation_1" value="0"/></decision>
</decisionGroup></combinedDecisions>
